//! What `uvm_init` and `uvm_alloc` answer and write, and that they write nothing else.

mod made;
mod memory;

use made::makes;
use memory::{refuses, Memory};
use ronakvesh::{PhysicalAddress, Refusal, Store, VirtualAddress};

/// The first word of the level-0 table of block 0, where its tables are 1 and 2.
const WORD: usize = 512 * 2;
const GROUP: u64 = 1 << 30;

/// A store with root 0, in whose frames there is something.
fn used(tables: usize) -> Memory {
    let mut memory = Memory::with_root(tables);
    memory.bytes.fill(9);
    memory
}

fn init(src: &[u8]) -> impl Fn(&mut Store) -> Result<(), Refusal> + '_ {
    move |store| store.uvm_init(0, src)
}

/// Grows root 0, and holds the call to its answer.
fn grow(old: u64, new: u64, answer: u64) -> impl Fn(&mut Store) -> Result<(), Refusal> {
    move |store| {
        let given = store.uvm_alloc(0, old, new)?;
        assert_eq!(given, answer, "{old} to {new}");
        Ok(())
    }
}

/// Has a word point to a table, and the table's mark say so.
fn hang(memory: &mut Memory, word: usize, table: usize) {
    memory.words[word] = 0x4000_0000 + 1024 * table as u64 + 1;
    memory.tmarks[table] = word as u32 + 2;
}

/// Hangs the tables of block 0, numbers 1 and 2.
fn hang_block_0(memory: &mut Memory) {
    hang(memory, 0, 1);
    hang(memory, 512, 2);
}

/// Has a word name a pool frame with flags 31, and the frame hold the source and then zeros.
fn fill(memory: &mut Memory, word: usize, frame: usize, src: &[u8]) {
    memory.words[word] = 0x4400_0000 + 1024 * frame as u64 + 31;
    memory.fmarks[frame] = word as u32 + 2;
    let bytes = &mut memory.bytes[4096 * frame..4096 * (frame + 1)];
    bytes.fill(0);
    bytes[..src.len()].copy_from_slice(src);
}

#[test]
fn page_0_holds_the_source_then_zeros() {
    let source: Vec<u8> = (0..4095).map(|place| (place % 251) as u8 + 1).collect();
    for length in [0, 1, 8, 4094, 4095] {
        let src = &source[..length];
        makes(&mut used(8), init(src), |after| {
            hang_block_0(after);
            fill(after, WORD, 0, src);
        });
    }
}

#[test]
fn the_lowest_free_frame_and_tables_that_are_there() {
    let mut memory = used(3);
    let pages = memory.store().map(0, VirtualAddress(4096), PhysicalAddress(0x8000_0000), 12288, 22);
    assert_eq!(pages, Ok(2));
    for (page, frame) in [(1, 0), (2, 3)] {
        memory.enter(WORD + page, frame);
    }
    makes(&mut memory, init(&[5; 100]), |after| fill(after, WORD, 1, &[5; 100]));
    makes(&mut memory, grow(16384, 24576, 24576), |after| {
        fill(after, WORD + 4, 2, &[]);
        fill(after, WORD + 5, 4, &[]);
    });
}

#[test]
fn pages_up_to_the_size() {
    for (old, new, pages) in [(0, 1, 0..1), (0, 4096, 0..1), (0, 4097, 0..2), (1, 4097, 1..2), (4096, 16383, 1..4)] {
        let mut memory = used(3);
        makes(&mut memory, grow(old, new, new), |after| {
            hang_block_0(after);
            for (frame, page) in pages.enumerate() {
                fill(after, WORD + page, frame, &[]);
            }
        });
        makes(&mut memory, grow(new, new, new), |_| ());
    }
}

#[test]
fn no_page() {
    let mut memory = used(8);
    for (old, new) in [(0, 0), (1, 1), (1, 4096), (4095, 4096), (8193, 12288), (1 << 38, 1 << 38)] {
        makes(&mut memory, grow(old, new, new), |_| ());
    }
    makes(&mut memory, grow((1 << 38) - 4095, 1 << 38, 1 << 38), |_| ());
}

#[test]
fn a_size_that_is_less() {
    let mut memory = used(8);
    assert_eq!(memory.store().uvm_alloc(0, 0, 12288), Ok(12288));
    for old in [1, 4096, 8193, 12288, 12289, (1 << 38) - 1, 1 << 38] {
        for new in [0, old - 1, old / 2] {
            makes(&mut memory, grow(old, new, old), |_| ());
        }
    }
}

#[test]
fn pages_of_two_groups() {
    makes(&mut used(5), grow(GROUP - 4096, GROUP + 1, GROUP + 1), |after| {
        hang(after, 0, 1);
        hang(after, 512 + 511, 2);
        fill(after, 512 * 2 + 511, 0, &[]);
        hang(after, 1, 3);
        hang(after, 512 * 3, 4);
        fill(after, 512 * 4, 1, &[]);
    });
}

#[test]
fn the_last_page() {
    makes(&mut used(3), grow((1 << 38) - 4096, 1 << 38, 1 << 38), |after| {
        hang(after, 255, 1);
        hang(after, 512 + 511, 2);
        fill(after, WORD + 511, 0, &[]);
    });
}

#[test]
fn every_frame() {
    let mut memory = used(3);
    makes(&mut memory, grow(0, 32768, 32768), |after| {
        hang_block_0(after);
        for page in 0..8 {
            fill(after, WORD + page, page, &[]);
        }
    });
    refuses(&mut memory, Refusal::TooFewFrames, |store| store.uvm_alloc(0, 32768, 32769));
}

#[test]
fn a_frame_that_was_given_back_is_zeroed() {
    let mut memory = used(3);
    assert_eq!(memory.store().uvm_alloc(0, 0, 12288), Ok(12288));
    memory.bytes.fill(7);
    assert_eq!(memory.store().uvm_dealloc(0, 12288, 4096), Ok(4096));
    makes(&mut memory, grow(4096, 8192, 8192), |after| fill(after, WORD + 1, 1, &[]));
}
