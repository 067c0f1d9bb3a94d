//! Growing: the pages up to the size that is asked for each get a fresh frame of zeros, or none of them does.

use ronakvesh::{Refusal, Store, VirtualAddress};

/// Grows root 0 from one size to another, and prints what came of it.
fn grow(store: &mut Store, old: u64, new: u64) {
    match store.uvm_alloc(0, old, new) {
        Ok(size) => println!("{old:#x} to {new:#x}: {size:#x}"),
        Err(refusal) => println!("{old:#x} to {new:#x}: no {}, {refusal}", refusal.number()),
    }
}

/// Prints the frames of the pages 0 to 3, 0 where one is not mapped, and the frame marks.
fn show(store: &Store) -> Result<(), Refusal> {
    let frames = (0..4).map(|page| store.pgt_translate(0, VirtualAddress(4096 * page)).map_or(0, |frame| frame.0));
    println!("well formed: {}, frames {:x?}, marks {:?}", store.check()?, frames.collect::<Vec<_>>(), store.fmarks);
    Ok(())
}

fn main() -> Result<(), Refusal> {
    let (mut words, mut tmarks) = ([0; 512 * 3], [0; 3]);
    let (mut bytes, mut fmarks) = ([0; 4096 * 4], [0; 4]);
    let mut store = Store { words: &mut words, tmarks: &mut tmarks, bytes: &mut bytes, fmarks: &mut fmarks };
    store.set_up()?;
    store.uvmcreate()?;
    grow(&mut store, 1, 0x1000);
    show(&store)?;
    grow(&mut store, 0, 0x1001);
    show(&store)?;
    grow(&mut store, 0x1001, 1);
    grow(&mut store, 0x1000, 0x2001);
    grow(&mut store, 0x1001, 0x5000);
    grow(&mut store, 0x1f_f000, 0x20_1000);
    grow(&mut store, 0x1001, 0x40_0000_0001);

    // a page that leaves gives its frame back with its bytes, and the next page gets it zeroed
    store.bytes[4096] = 9;
    println!("0x1001 to 0x1: {:#x}", store.uvm_dealloc(0, 0x1001, 1)?);
    println!("byte 0 of frame 1: {}", store.bytes[4096]);
    grow(&mut store, 1, 0x4000);
    println!("byte 0 of frame 1: {}", store.bytes[4096]);
    show(&store)
}
