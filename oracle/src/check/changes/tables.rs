//! Changes of a table's place: rings, too deep trees, and free tables that are not zero.

use super::{kind, Kind};
use crate::check::editor::Editor;
use crate::model::entries::{entry, pointer};
use crate::model::numbers::FREE;
use crate::model::store::{table_of, word_at};

pub const KINDS: [Kind; 8] = [
    kind("free table with a word", free_with_word),
    kind("ring of free tables", ring_of_free),
    kind("ring of used tables", ring_of_used),
    kind("table below level 0", below_level_0),
    kind("table hung one level up", moved_up),
    kind("table hung elsewhere", moved),
    kind("root hung below a table", root_below),
    kind("table given back with its words", given_back),
];

fn free_with_word(e: &mut Editor) -> Option<()> {
    let word = word_at(e.one_of(&e.places.free_tables)?, e.entry());
    let value = match e.below(5) {
        0 => 1,
        1 => 1 << e.below(64),
        2 => pointer(e.any_table()),
        3 => entry(0x8000_0000, 6),
        _ => e.random.uniform(),
    };
    e.trial.set_word(word, value);
    Some(())
}

/// One, two or three free tables point at each other in a ring, and their marks say so.
fn ring_of_free(e: &mut Editor) -> Option<()> {
    let free = &e.places.free_tables;
    let length = 1 + e.below(free.len().clamp(1, 3));
    let start = e.below(free.len().checked_sub(length)? + 1);
    let ring = &free[start..start + length];
    for (place, &table) in ring.iter().enumerate() {
        let word = word_at(table, e.entry());
        e.join(word, ring[(place + 1) % length]);
    }
    Some(())
}

/// A table is cut off from above and hung below itself, or below a table that it points to.
fn ring_of_used(e: &mut Editor) -> Option<()> {
    let below = e.one_of(&e.places.owned())?;
    let table = if e.below(4) == 0 { below } else { table_of(e.owner(below)?) };
    let word = word_at(below, e.entry());
    if e.word(word) != 0 {
        return None;
    }
    if let Some(owner) = e.owner(table) {
        e.trial.set_word(owner, 0);
    }
    e.join(word, table);
    Some(())
}

/// A level-0 word points to a free table, whose mark says so.
fn below_level_0(e: &mut Editor) -> Option<()> {
    let (word, table) = (e.zero_page_word()?, e.one_of(&e.places.free_tables)?);
    e.join(word, table);
    Some(())
}

/// A level-0 table is hung below a root, and its mark says so.
fn moved_up(e: &mut Editor) -> Option<()> {
    let (table, word) = (e.one_of(&e.places.level_0)?, e.zero_word(&e.places.roots)?);
    let owner = e.owner(table)?;
    e.trial.set_word(owner, 0);
    e.join(word, table);
    Some(())
}

/// A table is hung at any zero word, and its mark says so.
fn moved(e: &mut Editor) -> Option<()> {
    let (table, word) = (e.one_of(&e.places.owned())?, e.zero_word(&e.places.used())?);
    let owner = e.owner(table)?;
    e.trial.set_word(owner, 0);
    e.join(word, table);
    Some(())
}

/// A root is hung at any zero word, and its mark says so.
fn root_below(e: &mut Editor) -> Option<()> {
    let (root, word) = (e.one_of(&e.places.roots)?, e.zero_word(&e.places.used())?);
    e.join(word, root);
    Some(())
}

fn given_back(e: &mut Editor) -> Option<()> {
    let table = e.one_of(&e.places.owned())?;
    let owner = e.owner(table)?;
    e.trial.set_word(owner, 0);
    e.trial.set_table_mark(table, FREE);
    Some(())
}
