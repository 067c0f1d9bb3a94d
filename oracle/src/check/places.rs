//! What stands where in a well-formed store.

use crate::model::entries::{address, pool_frame};
use crate::model::levels::level;
use crate::model::numbers::FREE;
use crate::model::store::words_of;
use crate::model::Store;

/// Tables, frames and words by their numbers.
#[derive(Default)]
pub struct Places {
    pub free_tables: Vec<usize>,
    pub roots: Vec<usize>,
    pub level_1: Vec<usize>,
    pub level_0: Vec<usize>,
    pub free_frames: Vec<usize>,
    pub taken_frames: Vec<usize>,
    /// Words that point to a table.
    pub pointers: Vec<usize>,
    /// Words of pages.
    pub leaves: Vec<usize>,
    /// Words of pages that have a pool frame.
    pub pool_leaves: Vec<usize>,
}

impl Places {
    pub fn of(store: &Store) -> Self {
        let mut places = Places::default();
        for table in 0..store.tables() {
            places.add_table(store, table);
        }
        let is_free = |frame: &usize| store.frame_marks[*frame] == FREE;
        (places.free_frames, places.taken_frames) = (0..store.frames()).partition(is_free);
        places
    }

    /// The tables that hold pointers.
    pub fn upper(&self) -> Vec<usize> {
        [&self.roots[..], &self.level_1].concat()
    }

    /// The tables that a word points to.
    pub fn owned(&self) -> Vec<usize> {
        [&self.level_1[..], &self.level_0].concat()
    }

    /// The tables that are not free.
    pub fn used(&self) -> Vec<usize> {
        [&self.roots[..], &self.level_1, &self.level_0].concat()
    }

    /// Adds a table, and its words that are not 0.
    fn add_table(&mut self, store: &Store, table: usize) {
        let words = words_of(table).filter(|&word| store.words[word] != 0);
        match level(store, table) {
            Some(0) => {
                self.level_0.push(table);
                for word in words {
                    self.leaves.push(word);
                    if pool_frame(store, address(store.words[word])).is_some() {
                        self.pool_leaves.push(word);
                    }
                }
            }
            Some(level) => {
                if level == 1 { &mut self.level_1 } else { &mut self.roots }.push(table);
                self.pointers.extend(words);
            }
            None => self.free_tables.push(table),
        }
    }
}
