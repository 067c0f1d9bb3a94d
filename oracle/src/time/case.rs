//! One line of the table: a call in a store of some size, for a number of pages, and who is timed in it.

use super::calls::{Call, Other};
use super::held::Held;
use crate::archive::{self, Reply, NO_NUMBERS};
use std::fmt;
use std::hint::black_box;

/// Calls in a row where they are repeated, since the clock is not short beside one of them.
const IN_A_ROW: u64 = 16;

pub struct Case {
    pub call: &'static Call,
    pub tables: usize,
    frames: usize,
    pub pages: u64,
}

/// Who is timed.
#[derive(Clone, Copy)]
pub enum Side {
    /// Nothing but the clock itself.
    Clock,
    Check,
    Ours,
    Unchecked,
    Other(Other),
}

impl Case {
    /// Every case of a call.
    pub fn all(call: &'static Call) -> impl Iterator<Item = Self> {
        let of = move |tables, frames| move |&pages: &u64| Case { call, tables, frames, pages };
        call.in_few.iter().map(of(8, 64)).chain(call.in_many.iter().map(of(512, 4096)))
    }

    /// What it is timed against, by name: the Rust where it is right, and the C library.
    pub fn others(&self) -> Vec<(&'static str, Other)> {
        let rust = self.call.rust.filter(|_| self.pages <= self.call.right_up_to);
        rust.map(|rust| ("Rust", rust)).into_iter().chain(self.call.library).collect()
    }

    /// Who is timed.
    pub fn sides(&self) -> Vec<Side> {
        let others = self.others().into_iter().map(|(_, other)| Side::Other(other));
        [Side::Clock, Side::Check, Side::Ours, Side::Unchecked].into_iter().chain(others).collect()
    }

    /// How many calls are made in a row.
    pub fn in_a_row(&self) -> u64 {
        if self.call.repeats && self.pages <= 1 {
            IN_A_ROW
        } else {
            1
        }
    }

    /// The store that it finds.
    pub fn store(&self) -> Held {
        let buffer = if self.call.has_buffer { 4096 * self.pages as usize - 1 } else { 0 };
        let mut held = Held::new(self.tables, self.frames, buffer);
        (self.call.finds)(&mut held, self.pages * self.in_a_row());
        held.fill();
        held.save();
        held
    }

    /// Makes the call of a side, which so many others follow in a row.
    pub fn run(&self, side: Side, held: &mut Held, left: u64) {
        let numbers = (self.call.numbers)(self.pages, left);
        match side {
            Side::Clock => _ = black_box(numbers),
            Side::Check => _ = black_box(held.call(archive::check, NO_NUMBERS)),
            Side::Ours => _ = black_box(held.call(self.call.ours, numbers)),
            Side::Unchecked => _ = black_box(held.call(self.call.unchecked, numbers)),
            Side::Other(other) => _ = black_box(other(held, numbers)),
        }
    }

    /// Whether a store whose last table, a free one, is not all zero is refused by the call, and not without its check.
    fn leaves_out_check(&self) -> bool {
        let is_refused = |call| {
            let mut held = self.store();
            *held.words_mut().last_mut().expect("a table") = 1;
            held.call(call, (self.call.numbers)(self.pages, 0)).number == 2
        };
        is_refused(self.call.ours) == self.call.has_check() && !is_refused(self.call.unchecked)
    }

    /// Whether all sides do what they are to: the same answer, where the other has it, and the same words, bytes and
    /// buffer. The C library is not held to the words.
    pub fn compare(&self) -> Result<(), &'static str> {
        if !self.leaves_out_check() {
            return Err("the check is not left out, or there is none");
        }
        let numbers = (self.call.numbers)(self.pages, self.in_a_row() - 1);
        let mut held = self.store();
        held.restore();
        let Reply { number: 0, value } = held.call(self.call.ours, numbers) else {
            return Err("our call is refused");
        };
        let (words, bytes, buffer) = (held.words().to_vec(), held.bytes_mut().to_vec(), held.buffer.clone());
        let mut same = |words_too: bool, call: &mut dyn FnMut(&mut Held) -> bool| {
            held.fill();
            held.restore();
            let answered = call(&mut held);
            answered && (!words_too || held.words() == words) && held.bytes_mut() == bytes && held.buffer == buffer
        };
        if !same(true, &mut |held| held.call(self.call.unchecked, numbers) == Reply { number: 0, value }) {
            return Err("without its check the call does something else");
        }
        for (name, other) in self.others() {
            if !same(name == "Rust", &mut |held| other(held, numbers).is_none_or(|other| other == value)) {
                return Err("the other side answers or leaves something else");
            }
        }
        Ok(())
    }
}

impl fmt::Display for Case {
    fn fmt(&self, out: &mut fmt::Formatter) -> fmt::Result {
        write!(out, "{} of {} pages in {} tables", self.call.name, self.pages, self.tables)
    }
}
