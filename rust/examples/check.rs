//! The check: a store that the calls have made is well formed, and one changed word or mark is noticed.

use ronakvesh::{PhysicalAddress, Refusal, Store, VirtualAddress};

fn main() -> Result<(), Refusal> {
    let (mut words, mut tmarks) = ([0; 512 * 8], [0; 8]);
    let (mut bytes, mut fmarks) = ([0; 4096 * 8], [0; 8]);
    let mut store = Store { words: &mut words, tmarks: &mut tmarks, bytes: &mut bytes, fmarks: &mut fmarks };
    store.set_up()?;
    let root = store.uvmcreate()?;
    store.map(root, VirtualAddress(0), PhysicalAddress(0x8000_0000), 8192, 22)?;
    println!("two pages mapped: {}", store.check()?);

    let word = store.words[0];
    println!("word 0: {word:#x}");
    store.words[0] = word + 1024;
    println!("word 0 points to the next table: {}", store.check()?);
    store.words[0] = word;
    println!("word 0 as it was: {}", store.check()?);

    store.tmarks[7] = 1;
    println!("table 7 marked as a root: {}", store.check()?);
    store.tmarks[7] = 2;
    println!("table 7 marked as pointed at by word 0: {}", store.check()?);
    Ok(())
}
