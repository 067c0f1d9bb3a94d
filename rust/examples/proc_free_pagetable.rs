//! Releasing a process with its trapframe: TRAMPOLINE leaves, then TRAPFRAME, then the pages, then the tables; or nothing
//! happens.

use ronakvesh::{PhysicalAddress, Refusal, Store, VirtualAddress};

const TRAMPOLINE: u64 = 0x3F_FFFF_F000;
const TRAPFRAME: u64 = 0x3F_FFFF_E000;

/// Releases root 0, and prints what came of it, and whether a refusal has left the store as it was.
fn release(store: &mut Store, size: u64) {
    let before = (store.words.to_vec(), store.tmarks.to_vec(), store.bytes.to_vec(), store.fmarks.to_vec());
    match store.proc_free_pagetable(0, size) {
        Ok(tables) => println!("size {size:#x}: {tables} tables given back"),
        Err(refusal) => {
            let after = (store.words.to_vec(), store.tmarks.to_vec(), store.bytes.to_vec(), store.fmarks.to_vec());
            println!("size {size:#x}: no {}, {refusal}; as before: {}", refusal.number(), before == after);
        }
    }
}

fn main() -> Result<(), Refusal> {
    let (mut words, mut tmarks) = ([0; 512 * 6], [0; 6]);
    let (mut bytes, mut fmarks) = ([0; 4096 * 4], [0; 4]);
    let mut store = Store { words: &mut words, tmarks: &mut tmarks, bytes: &mut bytes, fmarks: &mut fmarks };
    store.set_up()?;
    let root = store.uvmcreate()?;
    store.uvm_alloc(root, 0, 8192)?;
    store.map(root, VirtualAddress(TRAMPOLINE), PhysicalAddress(0x8000_0000), 4096, 10)?;
    release(&mut store, 0x2000);

    // a trapframe of the pool: its frame would be lost
    store.uvm_alloc(root, TRAPFRAME, TRAMPOLINE)?;
    release(&mut store, 0x2000);
    store.uvm_dealloc(root, TRAMPOLINE, TRAPFRAME)?;
    store.map(root, VirtualAddress(TRAPFRAME), PhysicalAddress(0x9000_0000), 4096, 6)?;

    // both would leave, and then the size is too much, or too little
    release(&mut store, 0x40_0000_0001);
    release(&mut store, 0x3000);
    release(&mut store, 0x1000);
    release(&mut store, 0x2000);
    println!("table marks {:?}, frame marks {:?}, well formed: {}", store.tmarks, store.fmarks, store.check()?);
    Ok(())
}
