//! A store with a process beside another root.

use crate::memory::Memory;
use ronakvesh::{PhysicalAddress, Refusal, Store, VirtualAddress};

pub const END: u64 = 1 << 38;
pub const TRAMPOLINE: u64 = END - 4096;
pub const TRAPFRAME: u64 = END - 8192;
/// The root of the process.
pub const ROOT: u64 = 3;

/// Root 0, with tables 1 and 2, maps pages 0 and 1 to frames 0 and 1; 12 tables, and something in the frames.
pub fn with_other() -> Memory {
    let mut memory = Memory::with_root(12);
    memory.bytes.fill(9);
    assert_eq!(memory.store().uvm_alloc(0, 0, 8192), Ok(8192));
    memory
}

/// The same with a root that maps its first pages to the frames from 2 on, in tables 4 and 5 where there is one.
pub fn with_pages(pages: u64) -> Memory {
    let mut memory = with_other();
    assert_eq!(memory.store().uvmcreate(), Ok(ROOT));
    assert_eq!(memory.store().uvm_alloc(ROOT, 0, 4096 * pages), Ok(4096 * pages));
    memory
}

/// Maps a page of the process to a frame outside the pool.
pub fn map(memory: &mut Memory, va: u64, permissions: u64) {
    let mapped = memory.store().map(ROOT, VirtualAddress(va), PhysicalAddress(0x8000_0000), 1, permissions);
    assert!(mapped.is_ok());
}

/// A call that releases a root, by its size.
pub type Release = fn(&mut Store, u64) -> Result<u64, Refusal>;

pub fn free(store: &mut Store, _: u64) -> Result<u64, Refusal> {
    store.free(ROOT)
}

pub fn uvm_free(store: &mut Store, size: u64) -> Result<u64, Refusal> {
    store.uvm_free(ROOT, size)
}

pub fn shared(store: &mut Store, size: u64) -> Result<u64, Refusal> {
    store.free_shared_user_pagetable(ROOT, size)
}

pub fn proc(store: &mut Store, size: u64) -> Result<u64, Refusal> {
    store.proc_free_pagetable(ROOT, size)
}
