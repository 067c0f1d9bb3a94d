//! The four slices, and how words and marks are numbered.

use super::lengths::Lengths;
use super::numbers::{ENTRIES, FRAME};
use std::ops::Range;

#[derive(Clone, PartialEq, Eq)]
pub struct Store {
    pub words: Vec<u64>,
    pub table_marks: Vec<u32>,
    pub bytes: Vec<u8>,
    pub frame_marks: Vec<u32>,
}

impl Store {
    /// A store of this many tables and frames, all zero.
    pub fn zeros(tables: usize, frames: usize) -> Self {
        Store::of_lengths(&Lengths::of(tables, frames))
    }

    /// Slices of these lengths, all zero.
    pub fn of_lengths(lengths: &Lengths) -> Self {
        Store {
            words: vec![0; lengths.words],
            table_marks: vec![0; lengths.table_marks],
            bytes: vec![0; lengths.bytes],
            frame_marks: vec![0; lengths.frame_marks],
        }
    }

    /// T.
    pub fn tables(&self) -> usize {
        self.table_marks.len()
    }

    /// F.
    pub fn frames(&self) -> usize {
        self.frame_marks.len()
    }

    pub fn lengths(&self) -> Lengths {
        Lengths {
            words: self.words.len(),
            table_marks: self.table_marks.len(),
            bytes: self.bytes.len(),
            frame_marks: self.frame_marks.len(),
        }
    }

    /// The words of a table.
    pub fn table(&self, table: usize) -> &[u64] {
        &self.words[words_of(table)]
    }

    /// The words of a table, to be written.
    pub fn table_mut(&mut self, table: usize) -> &mut [u64] {
        &mut self.words[words_of(table)]
    }

    /// The bytes of a frame, to be written.
    pub fn frame_mut(&mut self, frame: usize) -> &mut [u8] {
        &mut self.bytes[FRAME * frame..FRAME * (frame + 1)]
    }
}

/// The numbers of a table's words.
pub fn words_of(table: usize) -> Range<usize> {
    ENTRIES * table..ENTRIES * (table + 1)
}

/// The number of the word that is this entry of this table.
pub fn word_at(table: usize, entry: usize) -> usize {
    ENTRIES * table + entry
}

/// The table in which a word lies.
pub fn table_of(word: usize) -> usize {
    word / ENTRIES
}

/// The mark that names a word.
pub fn mark_of(word: usize) -> u32 {
    word as u32 + 2
}

/// The word that a mark names, which may lie beyond the end; none for 0 and 1.
pub fn marked_word(mark: u32) -> Option<usize> {
    mark.checked_sub(2).map(|word| word as usize)
}
