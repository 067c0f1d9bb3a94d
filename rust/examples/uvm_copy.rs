//! A process's pages for its child: fresh frames with the same flags and the same bytes, or none of them.

use ronakvesh::{Refusal, Store, VirtualAddress};

/// Copies pages from a parent to a child, and prints what came of it.
fn copy(store: &mut Store, parent: u64, child: u64, size: u64) {
    let before = (store.words.to_vec(), store.tmarks.to_vec(), store.bytes.to_vec(), store.fmarks.to_vec());
    match store.uvm_copy(parent, child, size) {
        Ok(()) => println!("{size:#x} bytes from {parent} to {child}: copied"),
        Err(refusal) => {
            let after = (store.words.to_vec(), store.tmarks.to_vec(), store.bytes.to_vec(), store.fmarks.to_vec());
            let (number, same) = (refusal.number(), before == after);
            println!("{size:#x} bytes from {parent} to {child}: no {number}, {refusal}; as before: {same}");
        }
    }
}

/// Prints the frames of a root's pages 0 and 1, 0 where one cannot be found, and the first bytes of page 0.
fn show(store: &Store, root: u64) -> Result<(), Refusal> {
    let frame = |page: u64| store.pgt_translate(root, VirtualAddress(4096 * page)).map_or(0, |frame| frame.0);
    let mut buffer = [0; 4];
    store.copy_in(root, VirtualAddress(0), &mut buffer)?;
    println!("root {root}: frames [{:#x}, {:#x}], page 0 begins {buffer:?}", frame(0), frame(1));
    Ok(())
}

fn main() -> Result<(), Refusal> {
    let (mut words, mut tmarks) = ([0; 512 * 8], [0; 8]);
    let (mut bytes, mut fmarks) = ([0; 4096 * 5], [0; 5]);
    let mut store = Store { words: &mut words, tmarks: &mut tmarks, bytes: &mut bytes, fmarks: &mut fmarks };
    store.set_up()?;
    let (parent, child) = (store.uvmcreate()?, store.uvmcreate()?);
    store.uvm_init(parent, &[1, 2, 3])?;
    store.uvm_alloc(parent, 4096, 8192)?;
    store.uvm_clear(parent, VirtualAddress(4096))?;
    copy(&mut store, parent, parent, 8192);
    copy(&mut store, parent, child, 8191);
    copy(&mut store, parent, child, 12288);
    copy(&mut store, parent, child, 8192);
    show(&store, parent)?;
    show(&store, child)?;

    // from now on each has its own bytes
    store.copy_out(child, VirtualAddress(0), &[9, 9])?;
    show(&store, parent)?;
    show(&store, child)?;
    copy(&mut store, parent, child, 4096);
    let third = store.uvmcreate()?;
    copy(&mut store, child, third, 8192);
    copy(&mut store, child, third, 4096);
    println!("well formed: {}, frame marks {:?}", store.check()?, store.fmarks);
    Ok(())
}
