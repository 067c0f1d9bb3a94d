//! What a change works with: the store on trial, what stands where in it, and random choices.

use crate::check::places::Places;
use crate::check::trial::Trial;
use crate::model::entries::{address, pointer, pool_frame};
use crate::model::numbers::{ENTRIES, ROOT, ROOT_END};
use crate::model::store::{mark_of, marked_word, table_of, word_at};
use crate::random::Random;

pub struct Editor<'a> {
    pub trial: &'a mut Trial,
    pub places: &'a Places,
    pub random: &'a mut Random,
}

impl Editor<'_> {
    pub fn below(&mut self, bound: usize) -> usize {
        self.random.below(bound as u64) as usize
    }

    /// A place in a list of this length, often the first or the last.
    pub fn place(&mut self, length: usize) -> usize {
        match self.below(8) {
            0 => 0,
            1 => length - 1,
            _ => self.below(length),
        }
    }

    /// One of a list; none where it is empty.
    pub fn one_of(&mut self, list: &[usize]) -> Option<usize> {
        match list.len() {
            0 => None,
            length => Some(list[self.place(length)]),
        }
    }

    /// Two different ones of a list.
    pub fn two_of(&mut self, list: &[usize]) -> Option<(usize, usize)> {
        let (first, second) = (self.one_of(list)?, self.one_of(list)?);
        (first != second).then_some((first, second))
    }

    /// An entry of a table, often one at an edge.
    pub fn entry(&mut self) -> usize {
        match self.below(8) {
            0 => 0,
            1 => ROOT_END - 1,
            2 => ROOT_END,
            3 => ENTRIES - 1,
            _ => self.below(ENTRIES),
        }
    }

    /// An entry that a root may not use.
    pub fn upper_entry(&mut self) -> usize {
        match self.below(4) {
            0 => ROOT_END,
            1 => ENTRIES - 1,
            _ => ROOT_END + self.below(ENTRIES - ROOT_END),
        }
    }

    /// One of the bits 54 to 63.
    pub fn reserved_bit(&mut self) -> u64 {
        1 << (54 + self.place(10))
    }

    pub fn word(&self, word: usize) -> u64 {
        self.trial.model.words[word]
    }

    pub fn table_mark(&self, table: usize) -> u32 {
        self.trial.model.table_marks[table]
    }

    pub fn frame_mark(&self, frame: usize) -> u32 {
        self.trial.model.frame_marks[frame]
    }

    pub fn tables(&self) -> usize {
        self.trial.model.tables()
    }

    pub fn frames(&self) -> usize {
        self.trial.model.frames()
    }

    pub fn any_table(&mut self) -> usize {
        self.place(self.tables())
    }

    pub fn any_frame(&mut self) -> usize {
        self.place(self.frames())
    }

    pub fn any_word(&mut self) -> usize {
        word_at(self.any_table(), self.entry())
    }

    /// A zero word in one of these tables, below the upper half of a root.
    pub fn zero_word(&mut self, tables: &[usize]) -> Option<usize> {
        let table = self.one_of(tables)?;
        let end = if self.table_mark(table) == ROOT { ROOT_END } else { ENTRIES };
        let word = word_at(table, self.entry() % end);
        (self.word(word) == 0).then_some(word)
    }

    /// A zero word that a pointer may be written to.
    pub fn zero_upper_word(&mut self) -> Option<usize> {
        self.zero_word(&self.places.upper())
    }

    /// A zero word that a page may be written to.
    pub fn zero_page_word(&mut self) -> Option<usize> {
        self.zero_word(&self.places.level_0)
    }

    /// Has a word and a table's mark name each other.
    pub fn join(&mut self, word: usize, table: usize) {
        self.trial.set_word(word, pointer(table));
        self.trial.set_table_mark(table, mark_of(word));
    }

    /// The word that a table's mark names.
    pub fn owner(&self, table: usize) -> Option<usize> {
        marked_word(self.table_mark(table)).filter(|&word| table_of(word) < self.tables())
    }

    /// The pool frame that a word names.
    pub fn named_frame(&self, word: usize) -> Option<usize> {
        pool_frame(&self.trial.model, address(self.word(word)))
    }
}
