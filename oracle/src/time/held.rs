//! The store that is timed: its words lie in the held window, so that both sides work on the same memory.

use crate::archive::{Numbers, Reply, Slices};
use kernel::boxed;
use kernel::window::{self, FRAMES_AT, PAGE, TABLES_AT};
use std::ffi::{c_int, c_void};
use std::slice::{from_raw_parts, from_raw_parts_mut};

/// The words of a table.
const ENTRIES: usize = 512;
/// The mark of a root.
const ROOT: u32 = 1;
/// The bytes of a large page, in which the words of 512 tables lie, so that runs differ less.
const LARGE: usize = 1 << 21;
/// MADV_HUGEPAGE, as Linux numbers it.
const IN_LARGE_PAGES: c_int = 14;

unsafe extern "C" {
    fn madvise(address: *mut c_void, length: usize, advice: c_int) -> c_int;
}

/// A call of an archive. A store's slices may always be lent to it.
pub type Lent = unsafe fn(Slices, Numbers) -> Reply;

/// A store and a buffer, and what it goes back to. There is one at a time, since all of them have the same words.
pub struct Held {
    pub table_marks: Vec<u32>,
    pub frame_marks: Vec<u32>,
    pub buffer: Vec<u8>,
    saved: Saved,
}

/// Words that are not zero, by number, and marks.
#[derive(Default)]
struct Saved {
    words: Vec<(usize, u64)>,
    table_marks: Vec<u32>,
    frame_marks: Vec<u32>,
}

/// Makes the window ready, with its words in a large page where there is one. To be called once, before all else here.
pub fn open() {
    window::open();
    // SAFETY: the window is open, and only how its memory is paged is asked for; a refusal changes nothing.
    unsafe { madvise(TABLES_AT as *mut c_void, LARGE, IN_LARGE_PAGES) };
}

impl Held {
    /// A store of this many tables and frames, with one root, table 0, and nothing else, and a buffer of this length.
    pub fn new(tables: usize, frames: usize, buffer: usize) -> Self {
        let (table_marks, frame_marks) = (vec![0; tables], vec![0; frames]);
        let mut held = Held { table_marks, frame_marks, buffer: vec![0; buffer], saved: Saved::default() };
        held.words_mut().fill(0);
        held.table_marks[0] = ROOT;
        held
    }

    /// Hangs this many tables below the root, from table 1 on: that at its entry 0, and the others below that one.
    pub fn hang(&mut self, tables: usize) {
        for table in 1..=tables {
            let word = if table == 1 { 0 } else { ENTRIES + table - 2 };
            self.words_mut()[word] = 0x4000_0000 + 1024 * table as u64 + 1;
            self.table_marks[table] = word as u32 + 2;
        }
    }

    /// Has it go back to the words and marks that it has now.
    pub fn save(&mut self) {
        let words = self.words().iter().copied().enumerate().filter(|&(_, word)| word != 0).collect();
        self.saved = Saved { words, table_marks: self.table_marks.clone(), frame_marks: self.frame_marks.clone() };
    }

    /// Goes back to the words and marks that were saved, and has the Rust know which of its pages are free.
    pub fn restore(&mut self) {
        let saved = std::mem::take(&mut self.saved);
        let words = self.words_mut();
        words.fill(0);
        saved.words.iter().for_each(|&(number, word)| words[number] = word);
        self.table_marks.copy_from_slice(&saved.table_marks);
        self.frame_marks.copy_from_slice(&saved.frame_marks);
        self.saved = saved;
        boxed::set_free(&self.table_marks, &self.frame_marks);
    }

    /// Writes something to the frames and something else to the buffer, none of it zero and no two frames alike nearby.
    pub fn fill(&mut self) {
        let (bytes, buffer) = self.bytes_and_buffer();
        repeat(bytes, 251);
        repeat(buffer, 241);
    }

    /// Makes a call.
    pub fn call(&mut self, call: Lent, numbers: Numbers) -> Reply {
        let slices = Slices {
            words: self.words_mut(),
            table_marks: &mut *self.table_marks,
            bytes: self.bytes_mut(),
            frame_marks: &mut *self.frame_marks,
            buffer: &mut *self.buffer,
        };
        // SAFETY: the slices are there and none of them overlap, and all of them may be written.
        unsafe { call(slices, numbers) }
    }

    /// Makes a call that must not be refused.
    pub fn must(&mut self, call: Lent, numbers: Numbers) {
        assert!(self.call(call, numbers).number == 0, "what a call finds is made");
    }

    /// The words, in the window.
    pub fn words(&self) -> &[u64] {
        // SAFETY: the window is open and at least this long, and who writes to it has this store mutably.
        unsafe { from_raw_parts(TABLES_AT as *const u64, ENTRIES * self.table_marks.len()) }
    }

    /// The words, to be written.
    pub fn words_mut(&mut self) -> &mut [u64] {
        // SAFETY: as above, and the store is had mutably here.
        unsafe { from_raw_parts_mut(TABLES_AT as *mut u64, ENTRIES * self.table_marks.len()) }
    }

    /// The bytes of the frames, in the window, to be written.
    pub fn bytes_mut(&mut self) -> &mut [u8] {
        self.bytes_and_buffer().0
    }

    /// These and the buffer.
    pub fn bytes_and_buffer(&mut self) -> (&mut [u8], &mut [u8]) {
        // SAFETY: as above.
        (unsafe { from_raw_parts_mut(FRAMES_AT as *mut u8, PAGE * self.frame_marks.len()) }, &mut self.buffer)
    }
}

/// Writes 1 up to a number to some bytes, again and again.
fn repeat(bytes: &mut [u8], last: u8) {
    let row: Vec<u8> = (1..=last).cycle().take(usize::from(last) * PAGE).collect();
    bytes.chunks_mut(row.len()).for_each(|part| part.copy_from_slice(&row[..part.len()]));
}
