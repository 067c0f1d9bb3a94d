//! The proved check and set-up, on lent slices.

use crate::archive::{self, Reply, Slices, NO_NUMBERS};
use crate::model::Store;
use std::fmt;
use std::ptr::from_ref;

/// The answer, or the refusal's number; a refusal is to carry the value 0.
pub type Answer = Result<u64, u64>;

/// Four slices that are lent to be read.
pub struct Lent<'a> {
    pub words: &'a [u64],
    pub table_marks: &'a [u32],
    pub bytes: &'a [u8],
    pub frame_marks: &'a [u32],
}

impl<'a> Lent<'a> {
    /// The slices of a store.
    pub fn of(store: &'a Store) -> Self {
        Lent {
            words: &store.words,
            table_marks: &store.table_marks,
            bytes: &store.bytes,
            frame_marks: &store.frame_marks,
        }
    }
}

/// What our check says.
pub fn check(lent: &Lent) -> Reply {
    let slices = Slices {
        words: from_ref(lent.words).cast_mut(),
        table_marks: from_ref(lent.table_marks).cast_mut(),
        bytes: from_ref(lent.bytes).cast_mut(),
        frame_marks: from_ref(lent.frame_marks).cast_mut(),
        buffer: &mut [],
    };
    // SAFETY: the slices are lent, and the check only reads.
    unsafe { archive::check(slices, NO_NUMBERS) }
}

/// What our set-up says, and writes.
pub fn set_up(words: &mut [u64], table_marks: &mut [u32], bytes: &mut [u8], frame_marks: &mut [u32]) -> Reply {
    // SAFETY: the slices are lent to be written, so they do not overlap.
    unsafe { archive::set_up(Slices { words, table_marks, bytes, frame_marks, buffer: &mut [] }, NO_NUMBERS) }
}

/// The reply that says a model's answer.
pub fn reply(answer: Answer) -> Reply {
    match answer {
        Ok(value) => Reply { number: 0, value },
        Err(number) => Reply { number, value: 0 },
    }
}

impl fmt::Display for Reply {
    fn fmt(&self, out: &mut fmt::Formatter) -> fmt::Result {
        write!(out, "number {} value {}", self.number, self.value)
    }
}
