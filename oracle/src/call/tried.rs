//! The store on which calls are made, three times over.

use crate::archive::{Numbers, Slices};
use crate::call::buffer::Buffer;
use crate::call::list::{Call, Writes};
use crate::call::original;
use crate::call::touched::{taken, touched};
use crate::model::Store;
use crate::random::Random;
use std::ops::Range;

/// A change of a well-formed store, after which it is well formed.
pub type Change = fn(&mut Store, &mut Random);

/// A store as it was, and as the model and ours leave it. Where it is well formed, the Rust has it too.
pub struct Tried {
    pub before: Store,
    pub model: Store,
    ours: Store,
    /// The buffer of the call that is made.
    pub buffer: Buffer,
    pub well_formed: bool,
    /// The table marks that the store was taken with.
    marks: Vec<u32>,
    /// The frame bytes that are looked at after the call that was made.
    touched: Vec<Range<usize>>,
}

impl Tried {
    /// No store yet.
    pub fn new() -> Self {
        let nothing = || Store::zeros(0, 0);
        let (before, model, ours) = (nothing(), nothing(), nothing());
        let (buffer, marks, touched) = (Buffer::default(), Vec::new(), Vec::new());
        Tried { before, model, ours, buffer, well_formed: false, marks, touched }
    }

    /// Takes a store three times over, and lends it to the Rust where it is well formed.
    pub fn take(&mut self, store: &Store, well_formed: bool) {
        for copy in [&mut self.before, &mut self.model, &mut self.ours] {
            copy.bytes.clone_from(&store.bytes);
        }
        original::hold_bytes(store);
        self.take_changed(store, well_formed);
    }

    /// Takes a store that has the bytes of the one before.
    pub fn take_changed(&mut self, store: &Store, well_formed: bool) {
        for copy in [&mut self.before, &mut self.model, &mut self.ours] {
            copy.words.clone_from(&store.words);
            copy.table_marks.clone_from(&store.table_marks);
            copy.frame_marks.clone_from(&store.frame_marks);
        }
        self.well_formed = well_formed;
        self.marks.clone_from(&store.table_marks);
        if well_formed {
            original::hold_words(store);
        }
    }

    /// Takes what a change makes of a well-formed store in its place, and answers that one.
    pub fn prepare(&mut self, change: Change, random: &mut Random) -> Option<Store> {
        let taken = self.well_formed.then(|| self.before.clone())?;
        let mut store = taken.clone();
        change(&mut store, random);
        self.take(&store, true);
        Some(taken)
    }

    /// Gives the store the other table marks that a call is to be made on.
    pub fn vary(&mut self, call: &Call, random: &mut Random) {
        if let Some(vary) = call.vary.filter(|_| self.well_formed) {
            vary(&mut self.before, random);
            self.share_marks();
        }
    }

    /// Gives the store the table marks back that it was taken with.
    pub fn restore(&mut self) {
        if self.before.table_marks != self.marks {
            self.before.table_marks.copy_from_slice(&self.marks);
            self.share_marks();
        }
    }

    /// Gives every side the table marks of the store as it was.
    fn share_marks(&mut self) {
        for copy in [&mut self.model, &mut self.ours] {
            copy.table_marks.copy_from_slice(&self.before.table_marks);
        }
        original::set_free(&self.before);
    }

    /// Makes the buffer that goes with the numbers of a call.
    pub fn lend(&mut self, call: &Call, numbers: Numbers, random: &mut Random) {
        let bytes = call.buffer.map_or(Vec::new(), |buffer| buffer(numbers, random));
        self.buffer.take(&bytes);
    }

    /// The store and the buffer that ours may write to.
    pub fn lent(&mut self) -> Slices {
        let Store { words, table_marks, bytes, frame_marks } = &mut self.ours;
        Slices {
            words: &mut **words,
            table_marks: &mut **table_marks,
            bytes: &mut **bytes,
            frame_marks: &mut **frame_marks,
            buffer: &mut *self.buffer.ours,
        }
    }

    /// Whether what a call may write to is as it must be: ours as the model has it, and after a refusal as it was.
    pub fn is_right(&mut self, call: &Call, numbers: Numbers, answered: bool) -> bool {
        let Tried { before, model, ours, buffer, .. } = &*self;
        let touched = match call.writes {
            Writes::Frames => {
                touched(before, [model, ours], numbers, if self.well_formed { buffer.ours.len() } else { 0 })
            }
            _ => Vec::new(),
        };
        let same = |one, other| same(call.writes, one, other, &touched);
        let right = same(ours, model) && (answered || same(model, before)) && buffer.is_right(answered);
        self.touched = touched;
        right
    }

    /// Whether the Rust has left the words and bytes that ours has, as far as the call may write to them.
    pub fn is_rusts(&self, writes: Writes) -> bool {
        let pages = writes == Writes::Nothing || original::holds_words(&self.ours);
        pages
            && self.touched.iter().all(|bytes| original::holds_some(&self.ours, bytes.clone()))
            && self.buffer.is_rusts()
    }

    /// Looks at the frame bytes that the Rust has taken, too.
    pub fn touch_rusts(&mut self, writes: Writes) {
        if writes == Writes::Frames {
            self.touched.extend(taken(&self.before, original::free_frames(&self.before)));
        }
    }

    /// Lends the Rust the store as it was, as far as the call may have written to it.
    pub fn hold_again(&self, writes: Writes) {
        for bytes in &self.touched {
            original::hold_some(&self.before, bytes.clone());
        }
        if writes != Writes::Nothing {
            original::hold_words(&self.before);
        }
    }

    /// Puts back what the call may have written to.
    pub fn put_back(&mut self, writes: Writes) {
        for store in [&mut self.model, &mut self.ours] {
            for bytes in &self.touched {
                store.bytes[bytes.clone()].copy_from_slice(&self.before.bytes[bytes.clone()]);
            }
            if matches!(writes, Writes::Marks | Writes::Frames) {
                store.frame_marks.copy_from_slice(&self.before.frame_marks);
            }
            if writes != Writes::Nothing {
                store.words.copy_from_slice(&self.before.words);
                store.table_marks.copy_from_slice(&self.before.table_marks);
            }
        }
    }

    /// Which sides have written to the store where they may not, after all calls on it.
    pub fn written(&self) -> impl Iterator<Item = &'static str> {
        let ours = (self.ours != self.before).then_some("ours");
        let model = (self.model != self.before).then_some("the model");
        let rust = (self.well_formed && !original::holds(&self.before)).then_some("the Rust");
        ours.into_iter().chain(model).chain(rust)
    }
}

/// Whether two stores have the same in all that a call may write to, of the bytes in those that are looked at.
fn same(writes: Writes, one: &Store, other: &Store, bytes: &[Range<usize>]) -> bool {
    let tables = || one.words == other.words && one.table_marks == other.table_marks;
    match writes {
        Writes::Nothing => true,
        Writes::Tables => tables(),
        Writes::Marks | Writes::Frames => {
            let same_bytes = |some: &Range<usize>| one.bytes[some.clone()] == other.bytes[some.clone()];
            tables() && one.frame_marks == other.frame_marks && bytes.iter().all(same_bytes)
        }
    }
}
