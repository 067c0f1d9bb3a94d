//! Set-up: memory with anything in it becomes a store with every table and frame free.

use ronakvesh::Store;

fn main() {
    let (mut words, mut tmarks) = ([7; 512 * 8], [7; 8]);
    let (mut bytes, mut fmarks) = ([7; 4096 * 8], [7; 8]);
    let mut store = Store { words: &mut words, tmarks: &mut tmarks, bytes: &mut bytes, fmarks: &mut fmarks };

    println!("before: well formed {:?}", store.check());
    println!("set up: {:?}", store.set_up());
    println!("after: well formed {:?}", store.check());
    println!("words left: {}", words.iter().filter(|word| **word != 0).count());
    println!("bytes left: {}", bytes.iter().filter(|byte| **byte != 0).count());

    let mut store = Store { words: &mut words, tmarks: &mut tmarks[1..], bytes: &mut bytes, fmarks: &mut fmarks };
    match store.set_up() {
        Ok(()) => println!("one mark fewer: set up"),
        Err(refusal) => println!("one mark fewer: no {}, {refusal}", refusal.number()),
    }
}
