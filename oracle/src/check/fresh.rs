//! Set-up on slices with garbage: refused only with 1 and then nothing is changed, else all zero and well formed.

use crate::check::lengths::around;
use crate::check::proved::{self, check, reply, Lent};
use crate::check::tally::Tally;
use crate::model::calls::set_up;
use crate::model::lengths::Lengths;
use crate::model::numbers::{MOST_FRAMES, MOST_TABLES};
use crate::model::Store;
use crate::random::Random;

/// How many elements of garbage lie before and after each slice, so that a write beside it is noticed.
const MARGIN: usize = 16;

/// T and F at the bounds, and one beyond them.
const LARGEST: [(usize, usize); 6] = [
    (MOST_TABLES, MOST_FRAMES),
    (MOST_TABLES, 1),
    (1, MOST_FRAMES),
    (MOST_TABLES + 1, 1),
    (1, MOST_FRAMES + 1),
    (MOST_TABLES - 1, MOST_FRAMES - 1),
];

/// Compares our set-up with the model's: all lengths around few tables and frames, and right ones of all small sizes.
pub fn compare(tally: &mut Tally) {
    let mut random = Random::new(0);
    for (tables, frames) in pairs(0..=3, 0..=3) {
        for lengths in around(tables, frames) {
            judge(&lengths, &mut random, tally);
        }
    }
    for (tables, frames) in pairs(1..=24, 1..=32).chain(LARGEST) {
        judge(&Lengths::of(tables, frames), &mut random, tally);
    }
    let right = Lengths::of(MOST_TABLES, MOST_FRAMES);
    judge(&Lengths { words: right.words - 1, ..right }, &mut random, tally);
    judge(&Lengths { table_marks: right.table_marks - 1, ..right }, &mut random, tally);
    judge(&Lengths { bytes: right.bytes - 1, ..right }, &mut random, tally);
    judge(&Lengths { frame_marks: right.frame_marks - 1, ..right }, &mut random, tally);
}

/// Every pair of a number of tables and a number of frames.
fn pairs(
    tables: impl Iterator<Item = usize>,
    frames: impl Iterator<Item = usize> + Clone,
) -> impl Iterator<Item = (usize, usize)> {
    tables.flat_map(move |tables| frames.clone().map(move |frames| (tables, frames)))
}

/// Compares both set-ups on garbage of these lengths.
fn judge(lengths: &Lengths, random: &mut Random, tally: &mut Tally) {
    let mut ours = garbage(lengths, random);
    let mut model = middle(&ours);
    let answer = set_up(&mut model);
    let expected = with_middle(&ours, &model);
    let said = proved::set_up(
        inside(&mut ours.words),
        inside(&mut ours.table_marks),
        inside(&mut ours.bytes),
        inside(&mut ours.frame_marks),
    );
    tally.set_ups.count(answer);
    if said != reply(answer) {
        tally.differ(0, format!("set_up: ours {said}, the model {}: {lengths}", reply(answer)));
    }
    if ours != expected {
        tally.differ(0, format!("set_up leaves other slices than the model: {lengths}"));
    }
    let after = check(&Lent::of(&middle(&ours)));
    if answer.is_ok() && after != reply(Ok(1)) {
        tally.differ(0, format!("check after set_up: {after}: {lengths}"));
    }
}

/// Garbage of these lengths, with margins.
fn garbage(lengths: &Lengths, random: &mut Random) -> Store {
    Store {
        words: random_numbers(lengths.words, || random.uniform()),
        table_marks: random_numbers(lengths.table_marks, || random.uniform() as u32),
        bytes: random_numbers(lengths.bytes, || random.uniform() as u8),
        frame_marks: random_numbers(lengths.frame_marks, || random.uniform() as u32),
    }
}

fn random_numbers<N>(length: usize, number: impl FnMut() -> N) -> Vec<N> {
    std::iter::repeat_with(number).take(length + 2 * MARGIN).collect()
}

/// A slice without its margins.
fn inside<N>(slice: &mut [N]) -> &mut [N] {
    let end = slice.len() - MARGIN;
    &mut slice[MARGIN..end]
}

/// A store of the slices without their margins.
fn middle(wide: &Store) -> Store {
    let mut wide = wide.clone();
    Store {
        words: inside(&mut wide.words).to_vec(),
        table_marks: inside(&mut wide.table_marks).to_vec(),
        bytes: inside(&mut wide.bytes).to_vec(),
        frame_marks: inside(&mut wide.frame_marks).to_vec(),
    }
}

/// The same margins, with a store between them.
fn with_middle(wide: &Store, store: &Store) -> Store {
    let mut wide = wide.clone();
    inside(&mut wide.words).copy_from_slice(&store.words);
    inside(&mut wide.table_marks).copy_from_slice(&store.table_marks);
    inside(&mut wide.bytes).copy_from_slice(&store.bytes);
    inside(&mut wide.frame_marks).copy_from_slice(&store.frame_marks);
    wide
}
