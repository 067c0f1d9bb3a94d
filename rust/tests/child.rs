//! What `uvm_copy` answers and writes, and that it writes nothing else.

mod made;
mod memory;
mod scattered;

use made::makes;
use memory::{refuses, Memory};
use ronakvesh::{PhysicalAddress, Refusal, Store, VirtualAddress};
use scattered::{place, scattered, FRAMES, WORD};

const END: u64 = 1 << 38;
/// The child's root.
const CHILD: usize = 3;
/// The frames that are free, which the child's pages get.
const FREE: [usize; 4] = [1, 3, 4, 6];

/// A scattered store of this many tables with a second root.
fn with_child(tables: usize) -> Memory {
    let mut memory = scattered(tables);
    assert_eq!(memory.store().uvmcreate(), Ok(CHILD as u64));
    memory
}

fn copy(size: u64) -> impl Fn(&mut Store) -> Result<(), Refusal> {
    move |store| store.uvm_copy(0, CHILD as u64, size)
}

/// Has a word point to a table, and the table's mark say so.
fn hang(memory: &mut Memory, word: usize, table: usize) {
    memory.words[word] = 0x4000_0000 + 1024 * table as u64 + 1;
    memory.tmarks[table] = word as u32 + 2;
}

/// Hangs the child's tables of block 0, and gives its pages fresh frames with the flags and bytes of the parent's.
fn copied(memory: &mut Memory, pages: usize) {
    hang(memory, 512 * CHILD, 4);
    hang(memory, 512 * 4, 5);
    for page in 0..pages {
        let word = 512 * 5 + page;
        memory.words[word] = 0x4400_0000 + 1024 * FREE[page] as u64 + memory.words[WORD + page] % 1024;
        memory.fmarks[FREE[page]] = word as u32 + 2;
        let from = place(4096 * page);
        memory.bytes.copy_within(from..from + 4096, 4096 * FREE[page]);
    }
}

#[test]
fn pages_with_their_flags_and_bytes() {
    for pages in 1..=4 {
        let mut memory = with_child(6);
        // other flags, software bits among them; V alone
        memory.words[WORD + 1] += 0x300;
        memory.words[WORD + 2] -= 30;
        makes(&mut memory, copy(4096 * pages as u64), |after| copied(after, pages));
    }
}

#[test]
fn no_page() {
    makes(&mut with_child(4), copy(0), |_| ());
}

#[test]
fn a_second_child() {
    let mut memory = Memory::with_root(9);
    for root in [1, 2] {
        assert_eq!(memory.store().uvmcreate(), Ok(root));
    }
    assert_eq!(memory.store().uvm_init(0, b"init"), Ok(()));
    for root in [1, 2] {
        assert_eq!(memory.store().uvm_copy(root - 1, root, 4096), Ok(()));
        let frame = PhysicalAddress(0x1_1000_0000 + 4096 * root);
        assert_eq!(memory.store().pgt_translate(root, VirtualAddress(0)), Ok(frame));
        assert_eq!(memory.bytes[4096 * root as usize..][..5], *b"init\0");
    }
}

#[test]
fn same_root() {
    let mut memory = with_child(6);
    for size in [0, 1, 4096, END + 1] {
        refuses(&mut memory, Refusal::SameRoot, |store| store.uvm_copy(0, 0, size));
    }
    refuses(&mut memory, Refusal::NoRoot, |store| store.uvm_copy(1, 1, 0));
    refuses(&mut memory, Refusal::NoRoot, |store| store.uvm_copy(0, 1, 1));
}

#[test]
fn sizes() {
    let mut memory = with_child(6);
    for size in [END + 1, END + 4096, u64::MAX] {
        refuses(&mut memory, Refusal::TooHigh, copy(size));
    }
    for size in [1, 4095, 4097, END - 1] {
        refuses(&mut memory, Refusal::NotAligned, copy(size));
    }
    refuses(&mut memory, Refusal::NotMapped, copy(END));
    assert_eq!(copy(4096)(&mut memory.store()), Ok(()));
}

#[test]
fn pages_of_the_parent() {
    let mut memory = with_child(6);
    refuses(&mut memory, Refusal::NotMapped, copy(4096 * 5));
    // a frame outside the pool, then a page that is not mapped
    memory.words[WORD + 1] = 0x2000_001F;
    memory.fmarks[FRAMES[1]] = 0;
    refuses(&mut memory, Refusal::NoPoolFrame, copy(8192));
    refuses(&mut memory, Refusal::NotMapped, copy(4096 * 5));
    // U is not asked for
    assert_eq!(memory.store().uvm_clear(0, VirtualAddress(0)), Ok(()));
    assert_eq!(copy(4096)(&mut memory.store()), Ok(()));
}

#[test]
fn pages_of_the_child() {
    let mut memory = with_child(6);
    let map = |store: &mut Store| store.map(CHILD as u64, VirtualAddress(8192), PhysicalAddress(0x8000_0000), 1, 22);
    assert_eq!(map(&mut memory.store()), Ok(2));
    refuses(&mut memory, Refusal::MappedAlready, copy(12288));
    assert_eq!(copy(8192)(&mut memory.store()), Ok(()));
    refuses(&mut memory, Refusal::MappedAlready, copy(4096));
}

#[test]
fn too_few_frames_and_tables() {
    let mut memory = with_child(5);
    refuses(&mut memory, Refusal::TooFewTables, copy(4096));
    assert_eq!(memory.store().uvm_dealloc(0, 16384, 12288), Ok(12288));
    assert_eq!(memory.store().uvm_alloc(0, 12288, 8 * 4096), Ok(8 * 4096));
    refuses(&mut memory, Refusal::TooFewFrames, copy(4096));
    assert_eq!(copy(0)(&mut memory.store()), Ok(()));

    let mut memory = with_child(6);
    assert_eq!(memory.store().uvm_alloc(0, 16384, 20480), Ok(20480));
    refuses(&mut memory, Refusal::TooFewFrames, copy(16384));
    assert_eq!(copy(12288)(&mut memory.store()), Ok(()));
}

#[test]
fn the_smallest_is_given() {
    let mut memory = with_child(4);
    refuses(&mut memory, Refusal::TooHigh, copy(END + 1));
    refuses(&mut memory, Refusal::TooFewTables, copy(4096));
    memory.words[WORD] = 0x2000_001F;
    memory.fmarks[FRAMES[0]] = 0;
    refuses(&mut memory, Refusal::NoPoolFrame, copy(4096));
    refuses(&mut memory, Refusal::NotMapped, copy(20480));
}
