//! Giving back the tables of a root, which has no page any more.

use ronakvesh::{PhysicalAddress, Refusal, Store, VirtualAddress};

/// Frees a root, and prints what came of it and the table marks.
fn free(store: &mut Store, root: u64) {
    match store.free(root) {
        Ok(tables) => println!("root {root}: {tables} tables given back, marks {:?}", store.tmarks),
        Err(refusal) => {
            println!("root {root}: no {}, {refusal}, marks {:?}", refusal.number(), store.tmarks);
        }
    }
}

fn main() -> Result<(), Refusal> {
    let (mut words, mut tmarks) = ([0; 512 * 8], [0; 8]);
    let (mut bytes, mut fmarks) = ([0; 4096 * 2], [0; 2]);
    let mut store = Store { words: &mut words, tmarks: &mut tmarks, bytes: &mut bytes, fmarks: &mut fmarks };
    store.set_up()?;
    let (first, second) = (store.uvmcreate()?, store.uvmcreate()?);
    store.map(first, VirtualAddress(0x1000), PhysicalAddress(0x8000_0000), 0x1000, 22)?;
    store.map(second, VirtualAddress(0x1000), PhysicalAddress(0x8000_0000), 0x1000, 22)?;
    store.map(first, VirtualAddress(0x20_0000), PhysicalAddress(0x9000_0000), 0x1000, 22)?;
    free(&mut store, first);
    store.uvm_unmap(first, VirtualAddress(0x1000), 1, true)?;
    free(&mut store, first);
    store.uvm_unmap(first, VirtualAddress(0x20_0000), 1, true)?;
    free(&mut store, first);
    free(&mut store, first);

    // the other root has kept its page, and the lowest table is taken again
    println!("{:#x}", store.pgt_translate(second, VirtualAddress(0x1000))?.0);
    println!("root {} again, well formed: {}", store.uvmcreate()?, store.check()?);
    Ok(())
}
