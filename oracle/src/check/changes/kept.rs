//! Changes of words with their marks, which keep the store well formed.

use super::{kind, Kind};
use crate::check::editor::Editor;
use crate::model::entries::{entry, frame_at};
use crate::model::numbers::FREE;
use crate::model::store::mark_of;

pub const KINDS: [Kind; 5] = [
    kind("free table hung at a zero word, with its mark", table_hung),
    kind("empty table given back, with its pointer", table_given_back),
    kind("free frame entered, with its mark", frame_entered),
    kind("page given another frame, with the marks", frame_replaced),
    kind("two pages exchanged, with their marks", pages_exchanged),
];

fn table_hung(e: &mut Editor) -> Option<()> {
    let (word, table) = (e.zero_upper_word()?, e.one_of(&e.places.free_tables)?);
    e.join(word, table);
    Some(())
}

/// A table without a word in use is given back: a root with its mark, any other with its pointer too.
fn table_given_back(e: &mut Editor) -> Option<()> {
    let table = e.one_of(&e.places.used())?;
    if e.trial.model.table(table).iter().any(|&word| word != 0) {
        return None;
    }
    if let Some(owner) = e.owner(table) {
        e.trial.set_word(owner, 0);
    }
    e.trial.set_table_mark(table, FREE);
    Some(())
}

fn frame_entered(e: &mut Editor) -> Option<()> {
    let (word, frame) = (e.zero_page_word()?, e.one_of(&e.places.free_frames)?);
    let value = entry(frame_at(frame), e.random.below(1024));
    e.trial.set_word(word, value);
    e.trial.set_frame_mark(frame, mark_of(word));
    Some(())
}

fn frame_replaced(e: &mut Editor) -> Option<()> {
    let (word, frame) = (e.one_of(&e.places.pool_leaves)?, e.one_of(&e.places.free_frames)?);
    let (old, value) = (e.named_frame(word)?, entry(frame_at(frame), e.word(word) & 1023));
    e.trial.set_word(word, value);
    e.trial.set_frame_mark(frame, mark_of(word));
    e.trial.set_frame_mark(old, FREE);
    Some(())
}

fn pages_exchanged(e: &mut Editor) -> Option<()> {
    let (first, second) = e.two_of(&e.places.leaves)?;
    let (first_value, second_value) = (e.word(first), e.word(second));
    for (word, value) in [(first, second_value), (second, first_value)] {
        e.trial.set_word(word, value);
        if let Some(frame) = e.named_frame(word) {
            e.trial.set_frame_mark(frame, mark_of(word));
        }
    }
    Some(())
}
