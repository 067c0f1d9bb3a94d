//! Compares our check with the model on many stores: well-formed ones as the calls leave them, and changed ones.

use crate::check::changes::{self, Kind};
use crate::check::editor::Editor;
use crate::check::grow::Growth;
use crate::check::places::Places;
use crate::check::proved::reply;
use crate::check::tally::Tally;
use crate::check::trial::Trial;
use crate::model::numbers::{MOST_FRAMES, MOST_TABLES};
use crate::model::reached::adds_up;
use crate::model::rules::RULES;
use crate::model::Store;
use crate::random::Random;
use std::sync::atomic::{AtomicU64, Ordering};
use std::thread;

/// How many stores grow from one fresh store; each batch has its own stream of random numbers.
const BATCH: u64 = 100;
/// How many changed stores are made of each grown one.
const CHANGED: u64 = 7;

/// Compares on this many stores, batch by batch, on every processor.
pub fn compare(stores: u64) -> Tally {
    let next = AtomicU64::new(0);
    let work = || {
        let mut tally = Tally::new();
        loop {
            let number = next.fetch_add(1, Ordering::Relaxed);
            let Some(left) = stores.checked_sub(number * BATCH).filter(|&left| left > 0) else { return tally };
            Batch::new(number, &mut tally).run(left.min(BATCH));
        }
    };
    let threads = thread::available_parallelism().map_or(1, |number| number.get());
    let mut tally = Tally::new();
    thread::scope(|scope| {
        let workers: Vec<_> = (0..threads).map(|_| scope.spawn(work)).collect();
        for worker in workers {
            tally.add(worker.join().expect("a worker ends"));
        }
    });
    tally
}

/// The stores that grow from one fresh store.
struct Batch<'a> {
    number: u64,
    random: Random,
    trial: Trial,
    kinds: Vec<&'static Kind>,
    tally: &'a mut Tally,
}

impl<'a> Batch<'a> {
    fn new(number: u64, tally: &'a mut Tally) -> Self {
        let mut random = Random::new(number + 1);
        let trial = Trial::new(fresh(number, &mut random));
        Batch { number, random, trial, kinds: changes::all().collect(), tally }
    }

    /// Compares on this many stores: each grown one, and changed ones made of it.
    fn run(&mut self, stores: u64) {
        self.grow(self.trial.model.tables() as u64 / 8);
        let mut left = stores;
        while left > 0 {
            let calls = 1 + self.random.below(6);
            self.grow(calls);
            self.judge(&[]);
            left -= 1;
            let places = Places::of(&self.trial.model);
            for _ in 0..left.min(CHANGED) {
                let made = self.change(&places);
                self.judge(&made);
                self.trial.undo();
                left -= 1;
            }
        }
    }

    /// Makes this many calls.
    fn grow(&mut self, calls: u64) {
        for _ in 0..calls {
            let calls = &mut self.tally.calls;
            Growth { store: &mut self.trial.model, random: &mut self.random, calls }.step();
        }
        self.trial.settle();
    }

    /// Makes one to three changes, and names their kinds.
    fn change(&mut self, places: &Places) -> Vec<usize> {
        changes::make(&mut Editor { trial: &mut self.trial, places, random: &mut self.random }, &self.kinds)
    }

    /// Compares our check with the model on the store as it is, and counts it.
    fn judge(&mut self, made: &[usize]) {
        let fails = RULES.map(|rule| !rule(&self.trial.model));
        let well_formed = !fails.contains(&true);
        let (ours, expected) = (self.trial.check(), reply(Ok(well_formed.into())));
        if ours != expected {
            self.differ(made, &format!("ours {ours}, the model {expected}"));
        }
        if !self.trial.is_kept() {
            self.differ(made, "our check wrote to the store");
            self.trial.settle();
        }
        if well_formed && !adds_up(&self.trial.model) {
            self.differ(made, "well formed, but free and reached do not add up");
        }
        if made.is_empty() && !well_formed {
            self.differ(made, "not well formed after calls of the model");
        }
        self.count(made, fails, well_formed);
    }

    fn count(&mut self, made: &[usize], fails: [bool; 5], well_formed: bool) {
        let split = if made.is_empty() { &mut self.tally.built } else { &mut self.tally.changed };
        split.count(well_formed);
        self.tally.count_rules(fails);
        for (place, &kind) in made.iter().enumerate() {
            if !made[..place].contains(&kind) {
                self.tally.kinds[kind].count(well_formed);
            }
        }
    }

    /// Counts a difference, with what was changed.
    fn differ(&mut self, made: &[usize], what: &str) {
        let names: Vec<&str> = made.iter().map(|&kind| self.kinds[kind].name).collect();
        let names = if made.is_empty() { "as built".to_string() } else { names.join("; ") };
        self.tally.differ(self.number, format!("{what} ({names}): {}", self.trial));
    }
}

/// The store from which a batch grows.
pub fn fresh(number: u64, random: &mut Random) -> Store {
    let (tables, frames) = sizes(number, random);
    with_garbage(tables, frames, random)
}

/// A store whose tables and marks are zeros, and its frames garbage.
pub fn with_garbage(tables: usize, frames: usize, random: &mut Random) -> Store {
    let mut store = Store::zeros(tables, frames);
    for bytes in store.bytes.chunks_exact_mut(8) {
        bytes.copy_from_slice(&random.uniform().to_le_bytes());
    }
    store
}

/// T and F of a batch: mostly small, now and then the largest.
fn sizes(number: u64, random: &mut Random) -> (usize, usize) {
    let mut up_to = |most: u64| 1 + random.below(most) as usize;
    match number % 800 {
        1 => (MOST_TABLES, MOST_FRAMES),
        201 => (MOST_TABLES, up_to(32)),
        401 => (up_to(24), MOST_FRAMES),
        601 => (up_to(MOST_TABLES as u64), up_to(MOST_FRAMES as u64)),
        _ => match up_to(20) {
            1 => (up_to(64), up_to(256)),
            2..=4 => (up_to(5), up_to(4)),
            _ => (up_to(24), up_to(32)),
        },
    }
}
