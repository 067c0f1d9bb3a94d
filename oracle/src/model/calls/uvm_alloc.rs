//! `uvm_alloc`: 1, 2, 3, 6, 14, 16, 17.

use crate::model::entries::{entry, frame_at, ALLOCATED};
use crate::model::judge::{self, refuse};
use crate::model::numbers::{MAXVA, PAGE};
use crate::model::pool::{free_frames, free_tables, take_frame, word_of_page};
use crate::model::store::mark_of;
use crate::model::walk::{is_mapped, missing_tables};
use crate::model::Store;
use std::ops::Range;

/// Maps fresh frames from the old size, rounded up, to the new one. Answer: the new size, or the old if that is larger.
pub fn uvm_alloc(store: &mut Store, root: u64, old: u64, new: u64) -> Result<u64, u64> {
    judge::store(store)?;
    let root = judge::root(store, root)?;
    refuse(6, old > MAXVA || new > MAXVA)?;
    if new < old {
        return Ok(old);
    }
    enter(store, root, old.div_ceil(PAGE)..new.div_ceil(PAGE))?;
    Ok(new)
}

/// Maps fresh frames to pages below 2^38 of a root: 14, 16, 17.
pub fn enter(store: &mut Store, root: usize, pages: Range<u64>) -> Result<(), u64> {
    refuse(14, pages.clone().any(|page| is_mapped(store, root, page)))?;
    refuse(16, pages.clone().count() > free_frames(store))?;
    refuse(17, missing_tables(store, root, pages.clone()) > free_tables(store))?;
    for page in pages {
        let word = word_of_page(store, root, page);
        let frame = take_frame(store, mark_of(word));
        store.words[word] = entry(frame_at(frame), ALLOCATED);
    }
    Ok(())
}
