//! What a helper answers, in one form for both sides.

use crate::archive::{PageRange, Reply, Truth};
use std::fmt;

/// How the Rust was built: sums wrap, or a sum that leaves 64 bits panics.
#[derive(Clone, Copy, PartialEq, Eq)]
pub enum Build {
    Wrapping,
    Checked,
}

#[derive(Clone, Copy, PartialEq, Eq)]
pub enum Answer {
    /// A number, or a truth value as 0 and 1.
    Done(u64),
    /// The pages from the first up to, not including, the end.
    Pages(u64, u64),
    /// A refusal's number, and the value beside it, which is to be 0.
    Refused(u64, u64),
    /// The Rust panicked.
    Panicked,
}

impl fmt::Display for Answer {
    fn fmt(&self, out: &mut fmt::Formatter) -> fmt::Result {
        match self {
            Answer::Done(value) => write!(out, "{value:#x}"),
            Answer::Pages(first, end) => write!(out, "pages {first:#x} up to {end:#x}"),
            Answer::Refused(number, 0) => write!(out, "refused with {number}"),
            Answer::Refused(number, value) => write!(out, "refused with {number} and value {value:#x}"),
            Answer::Panicked => write!(out, "a panic"),
        }
    }
}

impl From<u64> for Answer {
    fn from(value: u64) -> Self {
        Answer::Done(value)
    }
}

const _: () = assert!(usize::BITS == 64, "the comparison is for 64 bits");

impl From<usize> for Answer {
    fn from(value: usize) -> Self {
        Answer::Done(value as u64)
    }
}

impl From<bool> for Answer {
    fn from(value: bool) -> Self {
        Answer::Done(value.into())
    }
}

impl From<Truth> for Answer {
    fn from(truth: Truth) -> Self {
        Answer::Done(truth.0.into())
    }
}

impl From<Reply> for Answer {
    fn from(reply: Reply) -> Self {
        match reply.number {
            0 => Answer::Done(reply.value),
            number => Answer::Refused(number, reply.value),
        }
    }
}

impl From<PageRange> for Answer {
    fn from(range: PageRange) -> Self {
        Answer::Pages(range.first, range.end)
    }
}
