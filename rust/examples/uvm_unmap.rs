//! Unmapping: pages leave a root and their tables stay; a pool frame is given back, where freeing is asked for.

use ronakvesh::{PhysicalAddress, Refusal, Store, VirtualAddress};

/// Unmaps pages of root 0, and prints what came of it.
fn unmap(store: &mut Store, va: u64, pages: u64, freeing: bool) {
    let how = if freeing { "with freeing" } else { "without freeing" };
    match store.uvm_unmap(0, VirtualAddress(va), pages, freeing) {
        Ok(()) => println!("{pages} pages at {va:#x} {how}: gone"),
        Err(refusal) => println!("{pages} pages at {va:#x} {how}: no {}, {refusal}", refusal.number()),
    }
}

fn main() -> Result<(), Refusal> {
    let (mut words, mut tmarks) = ([0; 512 * 8], [0; 8]);
    let (mut bytes, mut fmarks) = ([0; 4096 * 4], [0; 4]);
    let mut store = Store { words: &mut words, tmarks: &mut tmarks, bytes: &mut bytes, fmarks: &mut fmarks };
    store.set_up()?;
    let root = store.uvmcreate()?;
    let (va, pa) = (VirtualAddress(0x1000), PhysicalAddress(0x8000_0000));
    println!("tables taken: {}", store.map(root, va, pa, 8192, 22)?);
    unmap(&mut store, 0x1001, 1, false);
    unmap(&mut store, 0x1000, 3, false);
    unmap(&mut store, 0x1000, 2, false);
    println!("tables taken: {}", store.map(root, va, pa, 8192, 22)?);
    store.map(root, VirtualAddress(0x3000), pa, 4096, 0)?;
    unmap(&mut store, 0x1000, 3, false);

    // page 0 gets pool frame 2: its word is word 0 of table 2, and the frame's mark says so
    store.words[1024] = 0x4400_081f;
    store.fmarks[2] = 1024 + 2;
    println!("well formed: {}, frame marks {:?}", store.check()?, store.fmarks);
    unmap(&mut store, 0, 2, false);
    unmap(&mut store, 0, 2, true);
    println!("well formed: {}, frame marks {:?}", store.check()?, store.fmarks);
    Ok(())
}
