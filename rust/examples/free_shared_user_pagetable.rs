//! Releasing what the threads of a process have in common: TRAMPOLINE leaves first, its frame is not given back.

use ronakvesh::{PhysicalAddress, Refusal, Store, VirtualAddress};

const TRAMPOLINE: VirtualAddress = VirtualAddress(0x3F_FFFF_F000);

/// Releases root 0, and prints what came of it.
fn release(store: &mut Store, size: u64) {
    match store.free_shared_user_pagetable(0, size) {
        Ok(tables) => println!("size {size:#x}: {tables} tables given back"),
        Err(refusal) => println!("size {size:#x}: no {}, {refusal}", refusal.number()),
    }
}

fn main() -> Result<(), Refusal> {
    let (mut words, mut tmarks) = ([0; 512 * 6], [0; 6]);
    let (mut bytes, mut fmarks) = ([0; 4096 * 4], [0; 4]);
    let mut store = Store { words: &mut words, tmarks: &mut tmarks, bytes: &mut bytes, fmarks: &mut fmarks };
    store.set_up()?;
    let root = store.uvmcreate()?;
    store.uvm_alloc(root, 0, 8192)?;

    // TRAMPOLINE is judged before the size
    release(&mut store, 0x40_0000_0001);
    store.map(root, TRAMPOLINE, PhysicalAddress(0x8000_0000), 4096, 26)?;
    release(&mut store, 0x40_0000_0001);
    release(&mut store, 0x3000);
    release(&mut store, 0x1000);
    println!("TRAMPOLINE has stayed: {:#x}", store.pgt_translate(root, TRAMPOLINE)?.0);
    release(&mut store, 0x2000);
    println!("table marks {:?}, frame marks {:?}, well formed: {}", store.tmarks, store.fmarks, store.check()?);
    Ok(())
}
