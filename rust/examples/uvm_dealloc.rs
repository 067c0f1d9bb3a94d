//! Shrinking: the pages past the size that is asked for leave a root, and their pool frames are given back.

use ronakvesh::{PhysicalAddress, Refusal, Store, VirtualAddress};

/// Shrinks root 0 from one size to another, and prints what came of it.
fn shrink(store: &mut Store, old: u64, new: u64) {
    match store.uvm_dealloc(0, old, new) {
        Ok(size) => println!("{old:#x} to {new:#x}: {size:#x}"),
        Err(refusal) => println!("{old:#x} to {new:#x}: no {}, {refusal}", refusal.number()),
    }
}

/// Prints which of the pages 0 to 3 are mapped, and the frame marks.
fn show(store: &Store) -> Result<(), Refusal> {
    let mapped: Vec<u64> = (0..4).filter(|page| store.pgt_translate(0, VirtualAddress(4096 * page)).is_ok()).collect();
    println!("well formed: {}, pages {mapped:?}, frame marks {:?}", store.check()?, store.fmarks);
    Ok(())
}

fn main() -> Result<(), Refusal> {
    let (mut words, mut tmarks) = ([0; 512 * 8], [0; 8]);
    let (mut bytes, mut fmarks) = ([0; 4096 * 4], [0; 4]);
    let mut store = Store { words: &mut words, tmarks: &mut tmarks, bytes: &mut bytes, fmarks: &mut fmarks };
    store.set_up()?;
    let root = store.uvmcreate()?;
    store.map(root, VirtualAddress(0), PhysicalAddress(0x8000_0000), 0x3000, 22)?;

    // page 3 gets pool frame 2: its word is word 3 of table 2, and the frame's mark says so
    store.words[1027] = 0x4400_081f;
    store.fmarks[2] = 1027 + 2;
    show(&store)?;
    shrink(&mut store, 0x4001, 0x2001);
    shrink(&mut store, 0x40_0000_0001, 0x2001);
    shrink(&mut store, 0x2001, 0x4000);
    shrink(&mut store, 0x4000, 0x2001);
    show(&store)?;
    shrink(&mut store, 0x2001, 0x2000);
    shrink(&mut store, 0x2000, 1);
    show(&store)?;
    store.map(root, VirtualAddress(0x1000), PhysicalAddress(0x8000_0000), 0x1000, 0)?;
    shrink(&mut store, 0x2000, 1);
    Ok(())
}
