//! The frame bytes that are looked at after a call: all of a store of few frames, and of many those of the frames that the call
//! takes, gives back or is asked to write to. What it writes elsewhere is found after all calls on the store.

use crate::archive::Numbers;
use crate::call::list::is_root;
use crate::model::entries::{address, pool_frame};
use crate::model::numbers::{FRAME, FREE, PAGE, PAGES};
use crate::model::walk::mapped_word;
use crate::model::Store;
use std::ops::Range;

/// A store of more frames than this has many.
const FEW: usize = 256;

/// The bytes for a call with these numbers and a buffer of this length, from the store before it and as two sides leave it.
pub fn touched(before: &Store, after: [&Store; 2], numbers: Numbers, length: usize) -> Vec<Range<usize>> {
    if before.frames() <= FEW {
        return vec![0..before.bytes.len()];
    }
    let is_changed = |frame: &usize| after.iter().any(|store| store.frame_marks[*frame] != before.frame_marks[*frame]);
    let changed = (0..before.frames()).filter(is_changed);
    changed.chain(on_the_way(before, numbers, length)).map(bytes_of).collect()
}

/// The bytes of the frames that were taken, lowest first, until this many are left.
pub fn taken(before: &Store, left: usize) -> Vec<Range<usize>> {
    let free: Vec<usize> = (0..before.frames()).filter(|&frame| before.frame_marks[frame] == FREE).collect();
    let number = if before.frames() <= FEW { 0 } else { free.len() - left };
    free.into_iter().take(number).map(bytes_of).collect()
}

fn bytes_of(frame: usize) -> Range<usize> {
    FRAME * frame..FRAME * (frame + 1)
}

/// The pool frames of the pages to which a buffer of this length is copied.
fn on_the_way(store: &Store, numbers: Numbers, length: usize) -> Vec<usize> {
    let [root, va, ..] = numbers;
    if length == 0 || !is_root(store, numbers) {
        return Vec::new();
    }
    let last = (va.saturating_add(length as u64 - 1) / PAGE).min(PAGES - 1);
    let words = (va / PAGE..=last).filter_map(|page| mapped_word(store, root as usize, page));
    words.filter_map(|word| pool_frame(store, address(store.words[word]))).collect()
}
