//! Changes after which a frame has two owners, or an owner that is no page.

use super::{kind, Kind};
use crate::check::editor::Editor;
use crate::model::entries::{entry, frame_at, ALLOCATED};
use crate::model::store::{mark_of, word_at};

pub const KINDS: [Kind; 6] = [
    kind("second page of a taken frame", second_page),
    kind("page's mark passed on to a second page", passed_on),
    kind("page takes another page's frame", taken_over),
    kind("frame owned at level 2 or 1", owned_above),
    kind("frame owned by a free table", owned_by_free),
    kind("frame owned by a table that points to itself", owned_by_ring),
];

/// Has a word name a frame, and the frame's mark the word.
fn own(e: &mut Editor, word: usize, frame: usize) {
    e.trial.set_word(word, entry(frame_at(frame), ALLOCATED));
    e.trial.set_frame_mark(frame, mark_of(word));
}

/// A zero word names a frame that another word owns.
fn second_page(e: &mut Editor) -> Option<()> {
    let (word, owner) = (e.zero_page_word()?, e.one_of(&e.places.pool_leaves)?);
    let value = e.word(owner);
    e.trial.set_word(word, value);
    Some(())
}

/// A zero word names a taken frame, whose mark now names that word; the old owner stays.
fn passed_on(e: &mut Editor) -> Option<()> {
    let (word, frame) = (e.zero_page_word()?, e.one_of(&e.places.taken_frames)?);
    own(e, word, frame);
    Some(())
}

/// A page of a pool frame names the frame of another one; its own is given back.
fn taken_over(e: &mut Editor) -> Option<()> {
    let (word, other) = e.two_of(&e.places.pool_leaves)?;
    let (frame, value) = (e.named_frame(word)?, e.word(other));
    e.trial.set_word(word, value);
    e.trial.set_frame_mark(frame, 0);
    Some(())
}

fn owned_above(e: &mut Editor) -> Option<()> {
    let (word, frame) = (e.zero_upper_word()?, e.one_of(&e.places.free_frames)?);
    own(e, word, frame);
    Some(())
}

fn owned_by_free(e: &mut Editor) -> Option<()> {
    let (table, frame) = (e.one_of(&e.places.free_tables)?, e.one_of(&e.places.free_frames)?);
    let word = word_at(table, e.entry());
    own(e, word, frame);
    Some(())
}

/// A free table points to itself, and another of its words owns a frame.
fn owned_by_ring(e: &mut Editor) -> Option<()> {
    let (table, frame) = (e.one_of(&e.places.free_tables)?, e.one_of(&e.places.free_frames)?);
    let (pointer, page) = (e.entry(), e.entry());
    if pointer == page {
        return None;
    }
    e.join(word_at(table, pointer), table);
    own(e, word_at(table, page), frame);
    Some(())
}
