//! The lengths of the four slices, and which of them are right.

use super::numbers::{ENTRIES, FRAME, MOST_FRAMES, MOST_TABLES};
use std::fmt;

#[derive(Clone, Copy, PartialEq, Eq)]
pub struct Lengths {
    pub words: usize,
    pub table_marks: usize,
    pub bytes: usize,
    pub frame_marks: usize,
}

impl Lengths {
    /// The lengths that belong to this many tables and frames.
    pub fn of(tables: usize, frames: usize) -> Self {
        Lengths { words: ENTRIES * tables, table_marks: tables, bytes: FRAME * frames, frame_marks: frames }
    }

    /// Whether T and F are in their bounds and the other lengths are exactly theirs.
    pub fn are_right(&self) -> bool {
        (1..=MOST_TABLES).contains(&self.table_marks)
            && (1..=MOST_FRAMES).contains(&self.frame_marks)
            && *self == Lengths::of(self.table_marks, self.frame_marks)
    }
}

impl fmt::Display for Lengths {
    fn fmt(&self, out: &mut fmt::Formatter) -> fmt::Result {
        let Lengths { words, table_marks, bytes, frame_marks } = self;
        write!(out, "{words} words, {table_marks} table marks, {bytes} bytes, {frame_marks} frame marks")
    }
}
