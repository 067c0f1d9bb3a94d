//! Changes of a word at level 2 or 1 alone.

use super::{kind, Kind};
use crate::check::editor::Editor;
use crate::model::entries::{entry, pointer, V};
use crate::model::store::table_of;

pub const KINDS: [Kind; 11] = [
    kind("pointer to another table", to_another),
    kind("pointer to its own table", to_itself),
    kind("pointer to table T or beyond, or before 0", beyond),
    kind("pointer without V", without_v),
    kind("pointer with a bit of 54 to 63", with_reserved),
    kind("pointer with flags", with_flags),
    kind("pointer with one bit changed", one_bit),
    kind("pointer made 0", made_zero),
    kind("second pointer to a table", second),
    kind("new pointer to what it does not own", not_owned),
    kind("page at level 2 or 1", page),
];

/// A pointer to what is no table: before table 0, from table T on, and where frames lie.
fn no_table(e: &mut Editor) -> u64 {
    match e.below(5) {
        0 => pointer(e.tables()),
        1 => pointer(e.tables() + 1),
        2 => pointer(0x1_0000 + e.any_frame()),
        3 => pointer(0) - 1024,
        _ => pointer(e.tables() + e.below(0x2_0000)),
    }
}

/// Puts another number in place of a pointer.
fn replace(e: &mut Editor, change: impl Fn(&mut Editor, usize) -> Option<u64>) -> Option<()> {
    let word = e.one_of(&e.places.pointers)?;
    let value = change(e, word)?;
    e.trial.set_word(word, value);
    Some(())
}

fn to_another(e: &mut Editor) -> Option<()> {
    replace(e, |e, _| Some(pointer(e.any_table())))
}

fn to_itself(e: &mut Editor) -> Option<()> {
    replace(e, |_, word| Some(pointer(table_of(word))))
}

fn beyond(e: &mut Editor) -> Option<()> {
    replace(e, |e, _| Some(no_table(e)))
}

fn without_v(e: &mut Editor) -> Option<()> {
    replace(e, |e, word| Some(e.word(word) & !V))
}

fn with_reserved(e: &mut Editor) -> Option<()> {
    replace(e, |e, word| Some(e.word(word) | e.reserved_bit()))
}

fn with_flags(e: &mut Editor) -> Option<()> {
    replace(e, |e, word| Some(e.word(word) | e.random.below(1024)))
}

fn one_bit(e: &mut Editor) -> Option<()> {
    replace(e, |e, word| Some(e.word(word) ^ 1 << e.below(64)))
}

fn made_zero(e: &mut Editor) -> Option<()> {
    replace(e, |_, _| Some(0))
}

/// A zero word points to a table that another word owns.
fn second(e: &mut Editor) -> Option<()> {
    let (word, table) = (e.zero_upper_word()?, e.one_of(&e.places.owned())?);
    e.trial.set_word(word, pointer(table));
    Some(())
}

/// A zero word points to its own table, to a root, to a free table or to none.
fn not_owned(e: &mut Editor) -> Option<()> {
    let word = e.zero_upper_word()?;
    let value = match e.below(4) {
        0 => pointer(table_of(word)),
        1 => pointer(e.one_of(&e.places.roots)?),
        2 => no_table(e),
        _ => pointer(e.one_of(&e.places.free_tables)?),
    };
    e.trial.set_word(word, value);
    Some(())
}

/// A zero word becomes a page of a foreign frame, or any other number.
fn page(e: &mut Editor) -> Option<()> {
    let word = e.zero_upper_word()?;
    let value = match e.below(3) {
        0 => entry(0x8000_0000, e.random.below(1024)),
        1 => 1 << e.below(64),
        _ => e.random.uniform(),
    };
    e.trial.set_word(word, value);
    Some(())
}
