//! What the satp register takes for a root.

use ronakvesh::{Refusal, Store};

fn main() -> Result<(), Refusal> {
    let (mut words, mut tmarks) = ([0; 512 * 8], [0; 8]);
    let (mut bytes, mut fmarks) = ([0; 4096 * 8], [0; 8]);
    let mut store = Store { words: &mut words, tmarks: &mut tmarks, bytes: &mut bytes, fmarks: &mut fmarks };
    store.set_up()?;
    for _ in 0..2 {
        store.uvmcreate()?;
    }
    for root in 0..3 {
        match store.as_satp(root) {
            Ok(satp) => println!("root {root}: {satp:#x}"),
            Err(refusal) => println!("root {root}: no {}, {refusal}", refusal.number()),
        }
    }
    Ok(())
}
