//! `pgt_translate`: 1, 2, 3, 6, 11, 12.

use crate::model::entries::{address, U};
use crate::model::judge::{self, refuse};
use crate::model::numbers::{MAXVA, PAGE};
use crate::model::walk::mapped_word;
use crate::model::Store;

/// Looks a byte's page up. Answer: its frame's address, without the offset.
pub fn pgt_translate(store: &Store, root: u64, va: u64) -> Result<u64, u64> {
    judge::store(store)?;
    let root = judge::root(store, root)?;
    refuse(6, va >= MAXVA)?;
    let word = mapped_word(store, root, va / PAGE).ok_or(11u64)?;
    refuse(12, store.words[word] & U == 0)?;
    Ok(address(store.words[word]))
}
