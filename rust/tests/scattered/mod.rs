//! A store whose pages have their frames in no order.

use crate::memory::Memory;
use ronakvesh::{PhysicalAddress, VirtualAddress};

/// The first word of the level-0 table of block 0, whose tables are 1 and 2.
pub const WORD: usize = 512 * 2;
/// The frames of pages 0 to 3.
pub const FRAMES: [usize; 4] = [5, 2, 7, 0];

/// Root 0 maps pages 0 to 3 to these frames. No byte is 0, and neighbours differ, within a frame and from frame to frame.
pub fn scattered(tables: usize) -> Memory {
    let mut memory = Memory::with_root(tables);
    assert_eq!(memory.store().map(0, VirtualAddress(0), PhysicalAddress(0x8000_0000), 16384, 22), Ok(2));
    for (page, frame) in FRAMES.into_iter().enumerate() {
        memory.enter(WORD + page, frame);
    }
    for (place, byte) in memory.bytes.iter_mut().enumerate() {
        *byte = (place % 251) as u8 + 1;
    }
    memory
}

/// The number of the byte at an address of these pages among the frame bytes.
pub fn place(va: usize) -> usize {
    4096 * FRAMES[va / 4096] + va % 4096
}
