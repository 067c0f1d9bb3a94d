//! Changes of a word at level 0 alone.

use super::{kind, Kind};
use crate::check::editor::Editor;
use crate::model::entries::{entry, frame_at, V};
use crate::model::numbers::{PAGE, PHYSICAL_END, TABLES_AT, WINDOW};

pub const KINDS: [Kind; 13] = [
    kind("page without V", without_v),
    kind("page with a bit of 54 to 63", with_reserved),
    kind("page with other flags", with_flags),
    kind("page with one bit changed", one_bit),
    kind("page made 0", made_zero),
    kind("page names a held frame outside of the pool", names_held),
    kind("page names a frame beside the window", names_beside),
    kind("page names a pool frame", names_pool),
    kind("new page of a held frame outside of the pool", new_held),
    kind("new page of a frame beside the window", new_beside),
    kind("new page of a foreign frame", new_foreign),
    kind("new page of a pool frame", new_pool),
    kind("new number that is no page", no_page),
];

/// A held address that is no pool frame's: a table's, or one at an edge of a part of the window.
fn held(e: &mut Editor) -> u64 {
    let end = frame_at(e.frames());
    let between = frame_at(0) - PAGE;
    match e.below(8) {
        0 => WINDOW.start,
        1 => WINDOW.end - PAGE,
        2 => between,
        3 => end,
        4 => end + PAGE,
        5 => TABLES_AT + PAGE * e.any_table() as u64,
        6 => WINDOW.start + PAGE * e.random.below((frame_at(0) - WINDOW.start) / PAGE),
        _ => end + PAGE * e.random.below((WINDOW.end - end) / PAGE),
    }
}

/// An address just outside of the held window.
fn beside(e: &mut Editor) -> u64 {
    let far = PAGE * e.random.below(3);
    match e.below(2) {
        0 => WINDOW.start - PAGE - far,
        _ => WINDOW.end + far,
    }
}

/// An address outside of the held window: the lowest, the highest, one that ends like a pool frame's, or any.
fn foreign(e: &mut Editor) -> u64 {
    match e.below(5) {
        0 => 0,
        1 => PHYSICAL_END - PAGE,
        2 => frame_at(e.any_frame()) | 1 << (33 + e.below(23)),
        3 => frame_at(e.any_frame()) & !TABLES_AT,
        _ => (e.random.uniform() % PHYSICAL_END) | 1 << 40,
    }
}

fn pool(e: &mut Editor) -> u64 {
    frame_at(e.any_frame())
}

/// Puts another number in place of a page's word.
fn replace(e: &mut Editor, change: impl Fn(&mut Editor, u64) -> u64) -> Option<()> {
    let word = e.one_of(&e.places.leaves)?;
    let value = change(e, e.word(word));
    e.trial.set_word(word, value);
    Some(())
}

/// Enters a page in place of a zero word.
fn enter(e: &mut Editor, address: impl Fn(&mut Editor) -> u64) -> Option<()> {
    let word = e.zero_page_word()?;
    let value = entry(address(e), e.random.below(1024));
    e.trial.set_word(word, value);
    Some(())
}

fn without_v(e: &mut Editor) -> Option<()> {
    replace(e, |_, word| word & !V)
}

fn with_reserved(e: &mut Editor) -> Option<()> {
    replace(e, |e, word| word | e.reserved_bit())
}

fn with_flags(e: &mut Editor) -> Option<()> {
    replace(e, |e, word| word ^ e.random.below(512) << 1)
}

fn one_bit(e: &mut Editor) -> Option<()> {
    replace(e, |e, word| word ^ 1 << e.below(64))
}

fn made_zero(e: &mut Editor) -> Option<()> {
    replace(e, |_, _| 0)
}

fn names_held(e: &mut Editor) -> Option<()> {
    replace(e, |e, word| entry(held(e), word & 1023))
}

fn names_beside(e: &mut Editor) -> Option<()> {
    replace(e, |e, word| entry(beside(e), word & 1023))
}

fn names_pool(e: &mut Editor) -> Option<()> {
    replace(e, |e, word| entry(pool(e), word & 1023))
}

fn new_held(e: &mut Editor) -> Option<()> {
    enter(e, held)
}

fn new_beside(e: &mut Editor) -> Option<()> {
    enter(e, beside)
}

fn new_foreign(e: &mut Editor) -> Option<()> {
    enter(e, foreign)
}

fn new_pool(e: &mut Editor) -> Option<()> {
    enter(e, pool)
}

/// A zero word becomes a number without V, or with a bit of 54 to 63.
fn no_page(e: &mut Editor) -> Option<()> {
    let word = e.zero_page_word()?;
    let value = match e.below(4) {
        0 => 1 << (1 + e.below(63)),
        1 => entry(0x8000_0000, e.random.below(1024)) & !V,
        2 => entry(0x8000_0000, e.random.below(1024)) | e.reserved_bit(),
        _ => e.reserved_bit() | V,
    };
    e.trial.set_word(word, value);
    Some(())
}
