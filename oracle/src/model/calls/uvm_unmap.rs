//! `uvm_unmap`: 1, 2, 3, 6, 7, 10, 11, 13.

use crate::model::entries::{address, flags, pool_frame, V};
use crate::model::judge::{self, refuse};
use crate::model::numbers::{PAGE, PAGES};
use crate::model::pool::give_back_frame;
use crate::model::walk::{is_mapped, mapped_word};
use crate::model::Store;
use std::ops::Range;

/// Unmaps `npages` pages; with freeing, their pool frames are given back. Answer: 0.
pub fn uvm_unmap(store: &mut Store, root: u64, va: u64, npages: u64, freeing: bool) -> Result<u64, u64> {
    judge::store(store)?;
    let root = judge::root(store, root)?;
    refuse(6, npages > PAGES)?;
    let first = va / PAGE;
    let pages = first..first + npages;
    judge::height(&pages)?;
    refuse(7, va % PAGE != 0)?;
    leave(store, root, pages, freeing)?;
    Ok(0)
}

/// Takes pages below 2^38 out of a root: 10, 11, 13.
pub fn leave(store: &mut Store, root: usize, pages: Range<u64>, freeing: bool) -> Result<(), u64> {
    let frame_of = |store: &Store, word: usize| pool_frame(store, address(store.words[word]));
    let is_own = |page: u64| mapped_word(store, root, page).is_some_and(|word| frame_of(store, word).is_some());
    refuse(10, !freeing && pages.clone().any(is_own))?;
    refuse(11, pages.clone().any(|page| !is_mapped(store, root, page)))?;
    let mapped: Vec<usize> = pages.filter_map(|page| mapped_word(store, root, page)).collect();
    refuse(13, mapped.iter().any(|&word| flags(store.words[word]) == V))?;
    for word in mapped {
        if let Some(frame) = frame_of(store, word) {
            give_back_frame(store, frame);
        }
        store.words[word] = 0;
    }
    Ok(())
}
