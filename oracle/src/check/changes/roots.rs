//! Changes of a root, most of them in the half of it that is not used.

use super::{kind, Kind};
use crate::check::editor::Editor;
use crate::model::entries::pointer;
use crate::model::numbers::{ROOT, ROOT_END};
use crate::model::store::word_at;

pub const KINDS: [Kind; 6] = [
    kind("root's entry 255 points to a free table", last_entry),
    kind("root's entry of 256 to 511 points to a free table", upper_entry),
    kind("root's entry of 256 to 511 is any number", upper_number),
    kind("root's pointer moved to 256 to 511", pointer_moved),
    kind("new root with an entry of 256 to 511", new_root),
    kind("root mark on a table with entries of 256 to 511", marked_root),
];

/// Joins a root's entry with a free table.
fn join_free(e: &mut Editor, entry: usize) -> Option<()> {
    let (root, table) = (e.one_of(&e.places.roots)?, e.one_of(&e.places.free_tables)?);
    let word = word_at(root, entry);
    if e.word(word) != 0 {
        return None;
    }
    e.join(word, table);
    Some(())
}

fn last_entry(e: &mut Editor) -> Option<()> {
    join_free(e, ROOT_END - 1)
}

fn upper_entry(e: &mut Editor) -> Option<()> {
    let entry = e.upper_entry();
    join_free(e, entry)
}

fn upper_number(e: &mut Editor) -> Option<()> {
    let word = word_at(e.one_of(&e.places.roots)?, e.upper_entry());
    let value = match e.below(3) {
        0 => 1 << e.below(64),
        1 => pointer(e.any_table()),
        _ => e.random.uniform(),
    };
    e.trial.set_word(word, value);
    Some(())
}

/// A level-1 table is hung at an entry of 256 to 511 of a root, and its mark says so.
fn pointer_moved(e: &mut Editor) -> Option<()> {
    let (table, root) = (e.one_of(&e.places.level_1)?, e.one_of(&e.places.roots)?);
    let (owner, word) = (e.owner(table)?, word_at(root, e.upper_entry()));
    e.trial.set_word(owner, 0);
    e.join(word, table);
    Some(())
}

/// A free table becomes a root that points to another free table.
fn new_root(e: &mut Editor) -> Option<()> {
    let (root, table) = e.two_of(&e.places.free_tables)?;
    let word = word_at(root, e.upper_entry());
    e.trial.set_table_mark(root, ROOT);
    e.join(word, table);
    Some(())
}

/// A table with entries in its upper half is cut off from above and marked as a root.
fn marked_root(e: &mut Editor) -> Option<()> {
    let table = e.one_of(&e.places.owned())?;
    let owner = e.owner(table)?;
    if e.trial.model.table(table)[ROOT_END..].iter().all(|&word| word == 0) {
        return None;
    }
    e.trial.set_word(owner, 0);
    e.trial.set_table_mark(table, ROOT);
    Some(())
}
