//! Translation: from an address in a page to the page's frame.

use ronakvesh::{PhysicalAddress, Refusal, Store, VirtualAddress};

/// Prints the frame that an address resolves to in root 0.
fn find(store: &Store, va: u64) {
    match store.pgt_translate(0, VirtualAddress(va)) {
        Ok(PhysicalAddress(pa)) => println!("{va:#x}: frame at {pa:#x}"),
        Err(refusal) => println!("{va:#x}: no {}, {refusal}", refusal.number()),
    }
}

fn main() -> Result<(), Refusal> {
    let (mut words, mut tmarks) = ([0; 512 * 8], [0; 8]);
    let (mut bytes, mut fmarks) = ([0; 4096 * 8], [0; 8]);
    let mut store = Store { words: &mut words, tmarks: &mut tmarks, bytes: &mut bytes, fmarks: &mut fmarks };
    store.set_up()?;
    let root = store.uvmcreate()?;
    store.map(root, VirtualAddress(0x1000), PhysicalAddress(0x8000_0000), 8192, 22)?;
    store.map(root, VirtualAddress(0x3000), PhysicalAddress(0x8000_2000), 4096, 6)?;
    find(&store, 0xfff);
    find(&store, 0x1000);
    find(&store, 0x2abc);
    find(&store, 0x3000);
    find(&store, 1 << 38);
    Ok(())
}
