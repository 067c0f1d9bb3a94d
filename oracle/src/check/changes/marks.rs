//! Changes of a mark alone.

use super::{kind, Kind};
use crate::check::editor::Editor;
use crate::model::numbers::{ENTRIES, FREE, ROOT};
use crate::model::store::mark_of;

pub const KINDS: [Kind; 16] = [
    kind("table mark off by one", table_off_by_one),
    kind("table mark with one bit changed", table_one_bit),
    kind("table mark names another word", table_other_word),
    kind("table mark names a word beyond the end", table_beyond),
    kind("used table marked 0", table_free),
    kind("table marked 1", table_root),
    kind("marks of two tables exchanged", tables_exchanged),
    kind("free table marked by a zero word", table_by_zero),
    kind("frame mark off by one", frame_off_by_one),
    kind("frame mark with one bit changed", frame_one_bit),
    kind("frame mark names another word", frame_other_word),
    kind("frame mark names a word beyond the end", frame_beyond),
    kind("taken frame marked 0", frame_free),
    kind("frame marked 1", frame_one),
    kind("marks of two frames exchanged", frames_exchanged),
    kind("frame mark names another frame's word", frame_other_leaf),
];

/// One more or one less.
fn beside(e: &mut Editor, mark: u32) -> u32 {
    if e.below(2) == 0 {
        mark.wrapping_add(1)
    } else {
        mark.wrapping_sub(1)
    }
}

/// A mark that names no word: the first of them, the last, or any.
fn beyond(e: &mut Editor) -> u32 {
    let first = mark_of(ENTRIES * e.tables());
    match e.below(4) {
        0 => first,
        1 => first + 1,
        2 => u32::MAX,
        _ => e.random.uniform() as u32 | 1 << 20,
    }
}

fn table_off_by_one(e: &mut Editor) -> Option<()> {
    let table = e.one_of(&e.places.used())?;
    let mark = beside(e, e.table_mark(table));
    e.trial.set_table_mark(table, mark);
    Some(())
}

fn table_one_bit(e: &mut Editor) -> Option<()> {
    let table = e.one_of(&e.places.used())?;
    let mark = e.table_mark(table) ^ 1 << e.below(32);
    e.trial.set_table_mark(table, mark);
    Some(())
}

fn table_other_word(e: &mut Editor) -> Option<()> {
    let table = e.one_of(&e.places.used())?;
    let word = if e.below(2) == 0 { e.any_word() } else { e.one_of(&e.places.pointers)? };
    e.trial.set_table_mark(table, mark_of(word));
    Some(())
}

fn table_beyond(e: &mut Editor) -> Option<()> {
    let (table, mark) = (e.any_table(), beyond(e));
    e.trial.set_table_mark(table, mark);
    Some(())
}

fn table_free(e: &mut Editor) -> Option<()> {
    let table = e.one_of(&e.places.used())?;
    e.trial.set_table_mark(table, FREE);
    Some(())
}

fn table_root(e: &mut Editor) -> Option<()> {
    let table = e.any_table();
    e.trial.set_table_mark(table, ROOT);
    Some(())
}

fn tables_exchanged(e: &mut Editor) -> Option<()> {
    let (first, second) = e.two_of(&e.places.used())?;
    let (first_mark, second_mark) = (e.table_mark(first), e.table_mark(second));
    e.trial.set_table_mark(first, second_mark);
    e.trial.set_table_mark(second, first_mark);
    Some(())
}

fn table_by_zero(e: &mut Editor) -> Option<()> {
    let (table, word) = (e.one_of(&e.places.free_tables)?, e.zero_word(&e.places.used())?);
    e.trial.set_table_mark(table, mark_of(word));
    Some(())
}

fn frame_off_by_one(e: &mut Editor) -> Option<()> {
    let frame = e.one_of(&e.places.taken_frames)?;
    let mark = beside(e, e.frame_mark(frame));
    e.trial.set_frame_mark(frame, mark);
    Some(())
}

fn frame_one_bit(e: &mut Editor) -> Option<()> {
    let frame = e.one_of(&e.places.taken_frames)?;
    let mark = e.frame_mark(frame) ^ 1 << e.below(32);
    e.trial.set_frame_mark(frame, mark);
    Some(())
}

fn frame_other_word(e: &mut Editor) -> Option<()> {
    let (frame, word) = (e.any_frame(), e.any_word());
    e.trial.set_frame_mark(frame, mark_of(word));
    Some(())
}

fn frame_beyond(e: &mut Editor) -> Option<()> {
    let (frame, mark) = (e.any_frame(), beyond(e));
    e.trial.set_frame_mark(frame, mark);
    Some(())
}

fn frame_free(e: &mut Editor) -> Option<()> {
    let frame = e.one_of(&e.places.taken_frames)?;
    e.trial.set_frame_mark(frame, FREE);
    Some(())
}

fn frame_one(e: &mut Editor) -> Option<()> {
    let frame = e.any_frame();
    e.trial.set_frame_mark(frame, 1);
    Some(())
}

fn frames_exchanged(e: &mut Editor) -> Option<()> {
    let (first, second) = e.two_of(&e.places.taken_frames)?;
    let (first_mark, second_mark) = (e.frame_mark(first), e.frame_mark(second));
    e.trial.set_frame_mark(first, second_mark);
    e.trial.set_frame_mark(second, first_mark);
    Some(())
}

/// The mark of a free frame names a page's word, of a pool frame or a foreign one.
fn frame_other_leaf(e: &mut Editor) -> Option<()> {
    let (frame, word) = (e.one_of(&e.places.free_frames)?, e.one_of(&e.places.leaves)?);
    e.trial.set_frame_mark(frame, mark_of(word));
    Some(())
}
