//! A store on trial: the model's copy, and its twin that is lent to the proved check.

use crate::archive::Reply;
use crate::check::proved::{check, Lent};
use crate::model::Store;
use std::fmt;

/// Where a store is changed.
#[derive(Clone, Copy)]
enum Place {
    Word(usize),
    TableMark(usize),
    FrameMark(usize),
}

/// One number that was changed.
struct Edit {
    place: Place,
    before: u64,
    after: u64,
}

pub struct Trial {
    pub model: Store,
    twin: Store,
    edits: Vec<Edit>,
}

impl Trial {
    pub fn new(model: Store) -> Self {
        Trial { twin: model.clone(), model, edits: Vec::new() }
    }

    /// Makes the twin equal to the model's copy, after calls of the model.
    pub fn settle(&mut self) {
        self.twin.words.copy_from_slice(&self.model.words);
        self.twin.table_marks.copy_from_slice(&self.model.table_marks);
        self.twin.bytes.copy_from_slice(&self.model.bytes);
        self.twin.frame_marks.copy_from_slice(&self.model.frame_marks);
    }

    pub fn set_word(&mut self, word: usize, value: u64) {
        self.change(Place::Word(word), value);
    }

    pub fn set_table_mark(&mut self, table: usize, mark: u32) {
        self.change(Place::TableMark(table), mark.into());
    }

    pub fn set_frame_mark(&mut self, frame: usize, mark: u32) {
        self.change(Place::FrameMark(frame), mark.into());
    }

    /// How many numbers were changed since the last undoing.
    pub fn changes(&self) -> usize {
        self.edits.len()
    }

    /// Undoes all changes.
    pub fn undo(&mut self) {
        while let Some(edit) = self.edits.pop() {
            put(&mut self.model, edit.place, edit.before);
            put(&mut self.twin, edit.place, edit.before);
        }
    }

    /// The twin, lent to be read.
    pub fn lent(&self) -> Lent<'_> {
        Lent::of(&self.twin)
    }

    /// What our check says of the twin.
    pub fn check(&self) -> Reply {
        check(&self.lent())
    }

    /// Whether the twin is still equal to the model's copy.
    pub fn is_kept(&self) -> bool {
        self.twin == self.model
    }

    fn change(&mut self, place: Place, after: u64) {
        let before = put(&mut self.model, place, after);
        put(&mut self.twin, place, after);
        if before != after {
            self.edits.push(Edit { place, before, after });
        }
    }
}

impl fmt::Display for Trial {
    fn fmt(&self, out: &mut fmt::Formatter) -> fmt::Result {
        write!(out, "T = {}, F = {}", self.model.tables(), self.model.frames())?;
        for Edit { place, before, after } in &self.edits {
            match place {
                Place::Word(word) => write!(out, ", word {word}: {before:#x} to {after:#x}")?,
                Place::TableMark(table) => write!(out, ", mark of table {table}: {before} to {after}")?,
                Place::FrameMark(frame) => write!(out, ", mark of frame {frame}: {before} to {after}")?,
            }
        }
        Ok(())
    }
}

/// Writes a number to its place, and answers what stood there.
fn put(store: &mut Store, place: Place, value: u64) -> u64 {
    match place {
        Place::Word(word) => std::mem::replace(&mut store.words[word], value),
        Place::TableMark(table) => std::mem::replace(&mut store.table_marks[table], value as u32).into(),
        Place::FrameMark(frame) => std::mem::replace(&mut store.frame_marks[frame], value as u32).into(),
    }
}
