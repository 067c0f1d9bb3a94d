//! In place of the Rust where it is not there.

use crate::answer::Answer;
use crate::archive::Numbers;
use crate::model::{pool, Store};
use std::ops::Range;

/// Whether the Rust is there.
pub const IS_THERE: bool = false;

pub fn open() {}

pub fn hold_bytes(_: &Store) {}

pub fn hold_words(_: &Store) {}

pub fn hold_some(_: &Store, _: Range<usize>) {}

pub fn set_free(_: &Store) {}

pub fn free_frames(store: &Store) -> usize {
    pool::free_frames(store)
}

pub fn holds(_: &Store) -> bool {
    true
}

pub fn holds_some(_: &Store, _: Range<usize>) -> bool {
    true
}

pub fn holds_words(_: &Store) -> bool {
    true
}

/// No call of the Rust is made.
pub fn absent(_: Numbers, _: &mut [u8]) -> Answer {
    unreachable!("the Rust is not there")
}

pub use {absent as as_satp, absent as map, absent as pgt_translate};
pub use {absent as copy_in, absent as copy_in_str, absent as copy_out};
pub use {absent as uvm_init, absent as uvm_unmap, absent as uvmcreate};
pub use {absent as uvm_alloc, absent as uvm_clear, absent as uvm_copy, absent as uvm_dealloc};
pub use {absent as free, absent as free_shared_user_pagetable, absent as proc_free_pagetable, absent as uvm_free};
