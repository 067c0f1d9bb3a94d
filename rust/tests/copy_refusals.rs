//! Every refusal of `copy_in`, `copy_out` and `copy_in_str`, each beside the nearest input that is taken. A refusal leaves
//! the store and the buffer as they were.

mod memory;
mod scattered;

use memory::{refuses, Memory};
use ronakvesh::{Refusal, Store, VirtualAddress};
use scattered::{place, scattered, FRAMES, WORD};

const END: u64 = 1 << 38;

/// Copies in, and holds the buffer of a refusal to what it was.
fn read(store: &Store, va: u64, length: usize) -> Result<(), Refusal> {
    let mut buffer = vec![3; length];
    let result = store.copy_in(0, VirtualAddress(va), &mut buffer);
    assert!(result.is_ok() || buffer == vec![3; length], "the buffer has changed");
    result
}

fn write(store: &mut Store, va: u64, length: usize) -> Result<(), Refusal> {
    store.copy_out(0, VirtualAddress(va), &vec![3; length])
}

/// Copies a string in, and holds the buffer of a refusal to what it was.
fn read_string(store: &Store, va: u64, length: usize) -> Result<(usize, bool), Refusal> {
    let mut buffer = vec![3; length];
    let result = store.copy_in_str(0, VirtualAddress(va), &mut buffer);
    assert!(result.is_ok() || buffer == vec![3; length], "the buffer has changed");
    result
}

/// Holds the three copies to a refusal.
#[track_caller]
fn none_copies(memory: &mut Memory, refusal: Refusal, va: u64, length: usize) {
    refuses(memory, refusal, |store| read(store, va, length));
    refuses(memory, refusal, |store| write(store, va, length));
    refuses(memory, refusal, |store| read_string(store, va, length));
}

/// Holds the three copies to an answer, where there is no zero.
#[track_caller]
fn all_copy(memory: &mut Memory, va: u64, length: usize) {
    assert_eq!(read(&memory.store(), va, length), Ok(()));
    assert_eq!(read_string(&memory.store(), va, length), Ok((length, false)));
    assert_eq!(write(&mut memory.store(), va, length), Ok(()));
}

/// Holds the copies to a refusal wherever page 1 is needed, and to answers elsewhere.
#[track_caller]
fn page_1_refused(memory: &mut Memory, refusal: Refusal) {
    for (va, length) in [(4096, 0), (4096, 1), (8191, 0), (8191, 2), (0, 4097), (4095, 2), (0, 16384)] {
        none_copies(memory, refusal, va, length);
    }
    for (va, length) in [(0, 4096), (4095, 0), (4095, 1), (8192, 0), (8192, 8192)] {
        all_copy(memory, va, length);
    }
}

/// Takes page `page` out of root 0 and gives its frame back.
fn unmap(memory: &mut Memory, page: usize) {
    assert_eq!(memory.store().uvm_unmap(0, VirtualAddress(4096 * page as u64), 1, true), Ok(()));
}

/// Has page `page` name a frame outside the pool.
fn make_foreign(memory: &mut Memory, page: usize) {
    memory.words[WORD + page] = 0x2000_001F;
    memory.fmarks[FRAMES[page]] = 0;
    assert_eq!(memory.store().check(), Ok(true));
}

#[test]
fn too_high() {
    let mut memory = Memory::with_root(3);
    assert_eq!(memory.store().uvm_alloc(0, END - 4096, END), Ok(END));
    memory.bytes.fill(7);
    for (va, length) in [(END, 0), (END, 1), (END - 1, 2), (END - 4096, 4097), (END - 4096, 9000)] {
        none_copies(&mut memory, Refusal::TooHigh, va, length);
    }
    for (va, length) in [(END + 1, 1), (2 * END - 1, 1), (u64::MAX, 0), (u64::MAX, 1), (u64::MAX, 5000)] {
        none_copies(&mut memory, Refusal::TooHigh, va, length);
    }
    for (va, length) in [(END - 1, 0), (END - 1, 1), (END - 4096, 4096)] {
        all_copy(&mut memory, va, length);
    }
}

#[test]
fn not_mapped() {
    let mut memory = scattered(3);
    unmap(&mut memory, 1);
    page_1_refused(&mut memory, Refusal::NotMapped);
    for va in [1 << 14, 1 << 21, 1 << 30, END - 1] {
        none_copies(&mut memory, Refusal::NotMapped, va, 0);
        none_copies(&mut memory, Refusal::NotMapped, va, 1);
    }
}

#[test]
fn not_user() {
    let mut memory = scattered(3);
    assert_eq!(memory.store().uvm_clear(0, VirtualAddress(4096)), Ok(()));
    page_1_refused(&mut memory, Refusal::NotUser);
}

#[test]
fn no_pool_frame() {
    let mut memory = scattered(3);
    make_foreign(&mut memory, 1);
    page_1_refused(&mut memory, Refusal::NoPoolFrame);
}

#[test]
fn the_smallest_of_all_pages_and_of_the_first_one_on_the_way() {
    let mut memory = scattered(3);
    make_foreign(&mut memory, 1);
    assert_eq!(memory.store().uvm_clear(0, VirtualAddress(8192)), Ok(()));
    unmap(&mut memory, 3);
    for (length, smallest) in [(4097, 15), (8193, 12), (12289, 11), (16385, 11)] {
        let smallest = Refusal::from_number(smallest).unwrap();
        refuses(&mut memory, smallest, |store| read(store, 0, length));
        refuses(&mut memory, smallest, |store| write(store, 0, length));
        refuses(&mut memory, Refusal::NoPoolFrame, |store| read_string(store, 0, length));
    }
    // of one page the smallest
    memory.words[WORD + 1] -= 16;
    refuses(&mut memory, Refusal::NotUser, |store| read_string(store, 0, 4097));
    // a zero before it
    memory.bytes[place(4095)] = 0;
    assert_eq!(read_string(&memory.store(), 0, 16385), Ok((4095, true)));
}

#[test]
fn bytes_above_the_end_behind_a_page_that_is_not_mapped() {
    let mut memory = Memory::with_root(3);
    refuses(&mut memory, Refusal::TooHigh, |store| read(store, END - 1, 2));
    refuses(&mut memory, Refusal::TooHigh, |store| write(store, END - 1, 2));
    refuses(&mut memory, Refusal::NotMapped, |store| read_string(store, END - 1, 2));
}
