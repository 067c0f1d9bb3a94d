//! `uvm_free`: 1, 2, 3; 6, 11, 13; 18.

use crate::model::calls::free;
use crate::model::calls::uvm_unmap::uvm_unmap;
use crate::model::numbers::PAGE;
use crate::model::Store;

/// Unmaps the pages from 0 to the size, rounded up, with freeing, then frees. Answer: that of `free`.
pub fn uvm_free(store: &mut Store, root: u64, size: u64) -> Result<u64, u64> {
    in_parts(store, |store| unmap_and_free(store, root, size))
}

/// The parts of `uvm_free`; size 0 has no unmapping part.
pub fn unmap_and_free(store: &mut Store, root: u64, size: u64) -> Result<u64, u64> {
    if size > 0 {
        uvm_unmap(store, root, 0, size.div_ceil(PAGE), true)?;
    }
    free(store, root)
}

/// Does parts one after the other, each on what those before it leave. Where one refuses, the store is what it was; no part
/// writes to the bytes.
pub fn in_parts(store: &mut Store, parts: impl FnOnce(&mut Store) -> Result<u64, u64>) -> Result<u64, u64> {
    let before = (store.words.clone(), store.table_marks.clone(), store.frame_marks.clone());
    let answer = parts(store);
    if answer.is_err() {
        (store.words, store.table_marks, store.frame_marks) = before;
    }
    answer
}
