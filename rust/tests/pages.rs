//! What `uvm_unmap`, `uvm_clear` and `uvm_dealloc` answer and write, and that they write nothing else.

mod made;
mod memory;

use made::makes;
use memory::{refuses, Memory};
use ronakvesh::{PhysicalAddress, Refusal, Store, VirtualAddress};

/// The first word of the level-0 table of the first block that is mapped.
const WORD: usize = 512 * 2;

/// A store with root 0 and this many pages from `va` on, mapped to frames from `pa` on with permissions 1023.
fn mapped(va: u64, pa: u64, pages: u64) -> Memory {
    let mut memory = Memory::with_root(8);
    let taken = memory.store().map(0, VirtualAddress(va), PhysicalAddress(pa), 4096 * pages, 1023);
    assert!(taken.is_ok());
    memory
}

fn unmap(va: u64, pages: u64, freeing: bool) -> impl Fn(&mut Store) -> Result<(), Refusal> {
    move |store| store.uvm_unmap(0, VirtualAddress(va), pages, freeing)
}

fn clear(va: u64) -> impl Fn(&mut Store) -> Result<(), Refusal> {
    move |store| store.uvm_clear(0, VirtualAddress(va))
}

/// Shrinks root 0, and holds the call to its answer.
fn shrink(old: u64, new: u64, answer: u64) -> impl Fn(&mut Store) -> Result<(), Refusal> {
    move |store| {
        let given = store.uvm_dealloc(0, old, new)?;
        assert_eq!(given, answer, "{old} to {new}");
        Ok(())
    }
}

#[test]
fn pages_leave_and_tables_stay() {
    let mut memory = mapped(0, 0x8000_0000, 4);
    makes(&mut memory, unmap(4096, 2, false), |after| after.words[WORD + 1..WORD + 3].fill(0));
    makes(&mut memory, unmap(0, 1, true), |after| after.words[WORD] = 0);
    makes(&mut memory, unmap(12288, 1, false), |after| after.words[WORD + 3] = 0);
    let again = memory.store().map(0, VirtualAddress(0), PhysicalAddress(0), 16384, 22);
    assert_eq!(again, Ok(0));
}

#[test]
fn pages_of_two_blocks() {
    let mut memory = mapped((1 << 30) - 4096, 0x8000_0000, 3);
    makes(&mut memory, unmap((1 << 30) - 4096, 2, false), |after| {
        after.words[512 * 2 + 511] = 0;
        after.words[512 * 4] = 0;
    });
}

#[test]
fn no_page() {
    let mut memory = mapped(0, 0x8000_0000, 1);
    for va in [0, 4096, 1 << 30, 1 << 38, u64::MAX - 4095] {
        makes(&mut memory, unmap(va, 0, false), |_| ());
        makes(&mut memory, unmap(va, 0, true), |_| ());
    }
}

#[test]
fn a_pool_frame_is_given_back_with_its_bytes() {
    let mut memory = mapped(0, 0x8000_0000, 3);
    memory.enter(WORD, 5);
    memory.enter(WORD + 1, 2);
    memory.bytes.fill(9);
    makes(&mut memory, unmap(4096, 2, true), |after| {
        after.words[WORD + 1..WORD + 3].fill(0);
        after.fmarks[2] = 0;
    });
    makes(&mut memory, unmap(0, 1, true), |after| {
        after.words[WORD] = 0;
        after.fmarks[5] = 0;
    });
}

#[test]
fn a_foreign_frame_is_left_alone() {
    for pa in [0, 0x8000_0000, 0xffff_f000, 0x1_2000_0000, (1 << 56) - 4096] {
        let mut memory = mapped(0, pa, 1);
        for frame in 0..8 {
            memory.enter(WORD + 1 + frame, frame);
        }
        makes(&mut memory, unmap(0, 1, true), |after| after.words[WORD] = 0);
    }
}

#[test]
fn u_is_taken_away_and_nothing_else() {
    let mut memory = mapped(0, 0x8000_0000, 3);
    memory.enter(WORD + 2, 3);
    makes(&mut memory, clear(4096 + 4095), |after| after.words[WORD + 1] -= 16);
    makes(&mut memory, clear(4096), |_| ());
    makes(&mut memory, clear(8192), |after| after.words[WORD + 2] -= 16);
    refuses(&mut memory, Refusal::NotUser, |store| store.pgt_translate(0, VirtualAddress(4096)));
    assert_eq!(memory.store().pgt_translate(0, VirtualAddress(0)), Ok(PhysicalAddress(0x8000_0000)));
}

#[test]
fn a_zero_word_stays_zero() {
    let mut memory = mapped(0, 0x8000_0000, 1);
    makes(&mut memory, clear(4096), |_| ());
    makes(&mut memory, unmap(0, 1, false), |after| after.words[WORD] = 0);
    makes(&mut memory, clear(0), |_| ());
}

#[test]
fn pages_past_the_size_leave() {
    for (old, new, first) in [(16384, 4096, 1), (12289, 4097, 2), (16383, 8191, 2), (12289, 12288, 3), (16384, 0, 0)] {
        let mut memory = mapped(0, 0x8000_0000, 5);
        makes(&mut memory, shrink(old, new, new), |after| after.words[WORD + first..WORD + 4].fill(0));
        makes(&mut memory, shrink(new, new, new), |_| ());
    }
}

#[test]
fn the_page_of_the_last_byte_stays() {
    let mut memory = mapped(0, 0x8000_0000, 3);
    makes(&mut memory, shrink(12288, 8193, 8193), |_| ());
    makes(&mut memory, shrink(8193, 8192, 8192), |after| after.words[WORD + 2] = 0);
    makes(&mut memory, shrink(8192, 1, 1), |after| after.words[WORD + 1] = 0);
    assert_eq!(memory.store().pgt_translate(0, VirtualAddress(0)), Ok(PhysicalAddress(0x8000_0000)));
    makes(&mut memory, shrink(1, 0, 0), |after| after.words[WORD] = 0);
}

#[test]
fn a_size_that_is_no_less() {
    let mut memory = mapped(0, 0x8000_0000, 3);
    for old in [0, 1, 4096, 8193, 12288, 12289, (1 << 38) - 1, 1 << 38] {
        for new in [old, old + 1, old + 4096, 1 << 38] {
            if new <= 1 << 38 {
                makes(&mut memory, shrink(old, new, old), |_| ());
            }
        }
    }
}

#[test]
fn sizes_of_two_blocks() {
    let mut memory = mapped((1 << 30) - 4096, 0x8000_0000, 3);
    makes(&mut memory, shrink((1 << 30) + 1, (1 << 30) - 4096, (1 << 30) - 4096), |after| {
        after.words[512 * 2 + 511] = 0;
        after.words[512 * 4] = 0;
    });
}

#[test]
fn pool_frames_past_the_size_are_given_back_with_their_bytes() {
    let mut memory = mapped(0, 0x8000_0000, 4);
    for (page, frame) in [(0, 5), (1, 2), (3, 7)] {
        memory.enter(WORD + page, frame);
    }
    memory.bytes.fill(9);
    makes(&mut memory, shrink(12289, 4097, 4097), |after| {
        after.words[WORD + 2..WORD + 4].fill(0);
        after.fmarks[7] = 0;
    });
    makes(&mut memory, shrink(4097, 4095, 4095), |after| {
        after.words[WORD + 1] = 0;
        after.fmarks[2] = 0;
    });
    makes(&mut memory, shrink(4095, 0, 0), |after| {
        after.words[WORD] = 0;
        after.fmarks[5] = 0;
    });
}
