//! What `copy_in`, `copy_out` and `copy_in_str` answer and write, and that they write nothing else.

mod made;
mod memory;
mod scattered;

use made::makes;
use memory::{refuses, Memory};
use ronakvesh::{Refusal, VirtualAddress};
use scattered::{place, scattered, WORD};

/// Addresses and lengths: none, within a page, from and to page ends and over them, all.
const RANGES: [(usize, usize); 18] = [
    (0, 0),
    (4095, 0),
    (16383, 0),
    (0, 1),
    (0, 4095),
    (0, 4096),
    (0, 4097),
    (1, 4095),
    (1, 4096),
    (4095, 1),
    (4095, 2),
    (4096, 4096),
    (100, 12000),
    (4094, 8195),
    (8192, 8192),
    (16383, 1),
    (1, 16383),
    (0, 16384),
];

/// The bytes from an address on.
fn bytes_at(memory: &Memory, va: usize, length: usize) -> Vec<u8> {
    (va..va + length).map(|va| memory.bytes[place(va)]).collect()
}

/// Holds a reading of a string to its answer, to a buffer of which that many bytes are written, and to a store that stays.
#[track_caller]
fn reads(memory: &mut Memory, va: usize, room: usize, answer: (usize, bool)) {
    let (before, mut buffer) = (memory.clone(), vec![0; room + 2]);
    let given = memory.store().copy_in_str(0, VirtualAddress(va as u64), &mut buffer[1..=room]);
    assert_eq!(given, Ok(answer));
    let mut after = vec![0; room + 2];
    after[1..=answer.0].copy_from_slice(&bytes_at(memory, va, answer.0));
    assert!(buffer == after, "the buffer is another");
    assert!(*memory == before, "the store is another");
}

#[test]
fn bytes_go_to_the_buffer() {
    let mut memory = scattered(3);
    let before = memory.clone();
    for (va, length) in RANGES {
        let mut buffer = vec![0; length + 2];
        assert_eq!(memory.store().copy_in(0, VirtualAddress(va as u64), &mut buffer[1..=length]), Ok(()));
        assert_eq!((buffer[0], buffer[length + 1]), (0, 0));
        assert!(buffer[1..=length] == bytes_at(&memory, va, length), "{length} bytes from {va} on");
    }
    assert!(memory == before);
}

#[test]
fn bytes_come_from_the_source() {
    for (va, length) in RANGES {
        let src: Vec<u8> = (0..length).map(|i| (i % 241) as u8 + 3).collect();
        makes(
            &mut scattered(3),
            |store| store.copy_out(0, VirtualAddress(va as u64), &src),
            |after| (va..).zip(&src).for_each(|(va, byte)| after.bytes[place(va)] = *byte),
        );
    }
}

#[test]
fn what_is_copied_out_comes_in_again() {
    let mut memory = scattered(3);
    let src: Vec<u8> = (0..9000).map(|i| (i % 239) as u8).collect();
    let mut buffer = vec![0; 9000];
    assert_eq!(memory.store().copy_out(0, VirtualAddress(3000), &src), Ok(()));
    assert_eq!(memory.store().copy_in(0, VirtualAddress(3000), &mut buffer), Ok(()));
    assert!(buffer == src);
}

#[test]
fn strings_without_a_zero() {
    for (va, length) in RANGES {
        reads(&mut scattered(3), va, length, (length, false));
    }
}

#[test]
fn strings_up_to_a_zero() {
    for (va, length) in
        [(0, 0), (0, 1), (5, 4090), (0, 4095), (0, 4096), (4095, 1), (4000, 100), (1, 12287), (0, 16383)]
    {
        let mut memory = scattered(3);
        memory.bytes[place(va + length)] = 0;
        // with room for the zero, and with more; a second zero behind the first is not met
        for room in [length + 1, length + 2, length + 5000] {
            reads(&mut memory, va, room, (length, true));
        }
        reads(&mut memory, va, length, (length, false));
    }
}

#[test]
fn a_zero_in_the_second_page_and_one_in_the_third() {
    let mut memory = scattered(3);
    for va in [4096 + 7, 8192 + 1] {
        memory.bytes[place(va)] = 0;
    }
    reads(&mut memory, 10, 9000, (4096 + 7 - 10, true));
    reads(&mut memory, 4096 + 8, 9000, (4096 - 7, true));
}

#[test]
fn pages_behind_the_zero_are_not_looked_at() {
    let mut memory = scattered(3);
    for word in [WORD + 1, WORD + 2, WORD + 3] {
        memory.fmarks[(memory.words[word] / 1024) as usize - 0x11_0000] = 0;
        memory.words[word] = 0;
    }
    memory.bytes[place(4095)] = 0;
    reads(&mut memory, 0, 4095, (4095, false));
    for room in [4096, 4097, 1 << 20] {
        reads(&mut memory, 0, room, (4095, true));
    }
}

#[test]
fn the_last_byte() {
    const END: u64 = 1 << 38;
    let mut memory = Memory::with_root(3);
    assert_eq!(memory.store().uvm_alloc(0, END - 4096, END), Ok(END));
    makes(
        &mut memory,
        |store| store.copy_out(0, VirtualAddress(END - 2), &[5, 6]),
        |after| after.bytes[4094..4096].copy_from_slice(&[5, 6]),
    );
    let mut buffer = [0; 2];
    assert_eq!(memory.store().copy_in(0, VirtualAddress(END - 2), &mut buffer), Ok(()));
    assert_eq!(buffer, [5, 6]);
    assert_eq!(memory.store().copy_in_str(0, VirtualAddress(END - 2), &mut buffer), Ok((2, false)));
    refuses(&mut memory, Refusal::TooHigh, |store| store.copy_in_str(0, VirtualAddress(END - 2), &mut [0; 3]));
    memory.bytes[4095] = 0;
    assert_eq!(memory.store().copy_in_str(0, VirtualAddress(END - 2), &mut [0; 9000]), Ok((1, true)));
}
