// The held window of document 01: memory at its own addresses, so that the Rust finds a page where its number says.

use crate::memory::PageTable;
use std::ffi::{c_int, c_void};
use std::ops::Range;
use std::ptr::copy_nonoverlapping;
use std::slice::from_raw_parts;

/// The bytes of a page.
pub const PAGE: usize = 4096;
/// Where table 0 lies; the window begins here.
pub const TABLES_AT: usize = 0x1_0000_0000;
/// Where frame 0 lies.
pub const FRAMES_AT: usize = 0x1_1000_0000;
/// The window ends here.
const END: usize = 0x1_2000_0000;

/// To be read and written.
const PROTECTION: c_int = 3;
/// MAP_PRIVATE, MAP_ANONYMOUS, MAP_NORESERVE and MAP_FIXED_NOREPLACE, as Linux numbers them on Arm and x86-64.
const FLAGS: c_int = 0x2 | 0x20 | 0x4000 | 0x10_0000;

unsafe extern "C" {
    fn mmap(
        address: *mut c_void,
        length: usize,
        protection: c_int,
        flags: c_int,
        file: c_int,
        offset: i64,
    ) -> *mut c_void;
}

/// Takes the memory of the window. To be called once, before all else here.
pub fn open() {
    // SAFETY: no memory that is in use is replaced.
    let place = unsafe { mmap(TABLES_AT as *mut c_void, END - TABLES_AT, PROTECTION, FLAGS, -1, 0) };
    assert!(place as usize == TABLES_AT, "the memory of the held window is not to be had");
}

/// The table of this number.
pub fn table(number: usize) -> *mut PageTable {
    (TABLES_AT + PAGE * number) as *mut PageTable
}

/// The number of a table.
pub fn number(table: *const PageTable) -> usize {
    (table as usize - TABLES_AT) / PAGE
}

/// The words of the table of this number.
pub fn words(number: usize) -> [u64; PAGE / 8] {
    // SAFETY: the window is open and has the table.
    unsafe { *table(number).cast() }
}

/// Writes a store's words and bytes to the window.
pub fn write(words: &[u64], bytes: &[u8]) {
    check_lengths(words, bytes);
    // SAFETY: the window is open, and the lengths stay in it.
    unsafe {
        copy_nonoverlapping(words.as_ptr(), TABLES_AT as *mut u64, words.len());
        copy_nonoverlapping(bytes.as_ptr(), FRAMES_AT as *mut u8, bytes.len());
    }
}

/// Whether the window has these words and bytes.
pub fn has(words: &[u64], bytes: &[u8]) -> bool {
    check_lengths(words, bytes);
    // SAFETY: the window is open, and the lengths stay in it; no slice of it outlives this function.
    unsafe {
        words == from_raw_parts(TABLES_AT as *const u64, words.len())
            && bytes == from_raw_parts(FRAMES_AT as *const u8, bytes.len())
    }
}

/// Writes some bytes of a store to the window.
pub fn write_bytes(bytes: &[u8], some: Range<usize>) {
    check_lengths(&[], bytes);
    let part = &bytes[some.clone()];
    // SAFETY: the window is open, and the lengths stay in it.
    unsafe { copy_nonoverlapping(part.as_ptr(), (FRAMES_AT + some.start) as *mut u8, part.len()) };
}

/// Whether the window has some bytes of a store.
pub fn has_bytes(bytes: &[u8], some: Range<usize>) -> bool {
    check_lengths(&[], bytes);
    let part = &bytes[some.clone()];
    // SAFETY: the window is open, and the lengths stay in it; no slice of it outlives this function.
    unsafe { part == from_raw_parts((FRAMES_AT + some.start) as *const u8, part.len()) }
}

/// A store's tables end before the frames begin, and its frames before the window ends.
fn check_lengths(words: &[u64], bytes: &[u8]) {
    assert!(size_of_val(words) <= FRAMES_AT - TABLES_AT && bytes.len() <= END - FRAMES_AT, "a store fits the window");
}
