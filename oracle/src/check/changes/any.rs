//! Changes of any number to any other.

use super::{kind, Kind};
use crate::check::editor::Editor;
use crate::model::store::mark_of;

pub const KINDS: [Kind; 3] = [
    kind("any word made any number", any_word),
    kind("any table mark made any number", any_table_mark),
    kind("any frame mark made any number", any_frame_mark),
];

fn any_word(e: &mut Editor) -> Option<()> {
    let word = e.any_word();
    let value = match e.below(4) {
        0 => e.random.uniform(),
        1 => e.random.uniform() >> e.below(64),
        2 => 1 << e.below(64) | 1,
        _ => (1 << 20 | e.random.below(1 << 17)) << 10 | e.random.below(1024), // the held window
    };
    e.trial.set_word(word, value);
    Some(())
}

/// A mark, often one that names a word.
fn any_mark(e: &mut Editor) -> u32 {
    match e.below(3) {
        0 => e.random.uniform() as u32,
        1 => e.random.uniform() as u32 >> e.below(32),
        _ => mark_of(e.any_word()),
    }
}

fn any_table_mark(e: &mut Editor) -> Option<()> {
    let (table, mark) = (e.any_table(), any_mark(e));
    e.trial.set_table_mark(table, mark);
    Some(())
}

fn any_frame_mark(e: &mut Editor) -> Option<()> {
    let (frame, mark) = (e.any_frame(), any_mark(e));
    e.trial.set_frame_mark(frame, mark);
    Some(())
}
