//! Releasing a process: its pages leave and their frames are given back, then its tables; or nothing happens.

use ronakvesh::{Refusal, Store, VirtualAddress};

/// Releases root 0, and prints what came of it and the marks.
fn release(store: &mut Store, size: u64) {
    match store.uvm_free(0, size) {
        Ok(tables) => println!("size {size:#x}: {tables} tables given back"),
        Err(refusal) => println!("size {size:#x}: no {}, {refusal}", refusal.number()),
    }
    println!("  table marks {:?}, frame marks {:?}", store.tmarks, store.fmarks);
}

fn main() -> Result<(), Refusal> {
    let (mut words, mut tmarks) = ([0; 512 * 4], [0; 4]);
    let (mut bytes, mut fmarks) = ([0; 4096 * 4], [0; 4]);
    let mut store = Store { words: &mut words, tmarks: &mut tmarks, bytes: &mut bytes, fmarks: &mut fmarks };
    store.set_up()?;
    let root = store.uvmcreate()?;
    store.uvm_init(root, b"init")?;
    store.uvm_alloc(root, 4096, 12288)?;

    // more than is mapped, more than there can be, and less
    release(&mut store, 0x3001);
    release(&mut store, 0x40_0000_0001);
    release(&mut store, 0x2000);
    release(&mut store, 0);
    release(&mut store, 0x2001);

    // frames that are given back keep their bytes, until they are taken again
    println!("{:?}", &store.bytes[..4]);
    let root = store.uvmcreate()?;
    store.uvm_alloc(root, 0, 4096)?;
    println!("{:#x}: {:?}", store.pgt_translate(root, VirtualAddress(0))?.0, &store.bytes[..4]);
    Ok(())
}
