//! `uvm_copy`: 1, 2, 3, 4, 6, 7, 11, 14, 15, 16, 17.

use crate::model::entries::{address, entry, flags, frame_at, pool_frame};
use crate::model::judge::{self, refuse};
use crate::model::numbers::{FRAME, MAXVA, PAGE};
use crate::model::pool::{free_frames, free_tables, take_frame, word_of_page};
use crate::model::store::mark_of;
use crate::model::walk::{is_mapped, mapped_word, missing_tables};
use crate::model::Store;

/// Gives the child the parent's pages of this size, in fresh frames with the same flags and bytes. Answer: 0.
pub fn uvm_copy(store: &mut Store, parent: u64, child: u64, size: u64) -> Result<u64, u64> {
    judge::store(store)?;
    let (parent, child) = (judge::root(store, parent)?, judge::root(store, child)?);
    refuse(4, child == parent)?;
    refuse(6, size > MAXVA)?;
    refuse(7, size % PAGE != 0)?;
    let pages = 0..size / PAGE;
    refuse(11, pages.clone().any(|page| !is_mapped(store, parent, page)))?;
    refuse(14, pages.clone().any(|page| is_mapped(store, child, page)))?;
    refuse(15, pages.clone().any(|page| frame_of(store, parent, page).is_none()))?;
    refuse(16, pages.clone().count() > free_frames(store))?;
    refuse(17, missing_tables(store, child, pages.clone()) > free_tables(store))?;
    for page in pages {
        let from = frame_of(store, parent, page).expect("a pool frame");
        let flags = flags(store.words[mapped_word(store, parent, page).expect("a mapped page")]);
        let word = word_of_page(store, child, page);
        let frame = take_frame(store, mark_of(word));
        store.words[word] = entry(frame_at(frame), flags);
        store.bytes.copy_within(FRAME * from..FRAME * (from + 1), FRAME * frame);
    }
    Ok(0)
}

/// The pool frame of a mapped page.
fn frame_of(store: &Store, root: usize, page: u64) -> Option<usize> {
    pool_frame(store, address(store.words[mapped_word(store, root, page)?]))
}
