//! What is counted over the stores of one part: random, large or chosen ones.

use crate::answer::Build;
use crate::archive::Numbers;
use crate::call::inputs::Inputs;
use crate::call::judge::judge;
use crate::call::list::{On, CALLS};
use crate::call::original;
use crate::call::peopled::people;
use crate::call::processes::make_processes;
use crate::call::tally::Tally;
use crate::call::tried::{Change, Tried};
use crate::random::Random;

/// How many differences are printed.
const SHOWN: usize = 10;

/// What is made of a store for which calls.
const PREPARED: [(On, Change); 2] = [(On::Peopled, people), (On::Processes, make_processes)];

pub struct Run {
    /// The build of the Rust, where it is there.
    build: Option<Build>,
    /// One for each call.
    pub tallies: Vec<Tally>,
    /// The stores on which calls were made, and how many of them are well formed.
    pub stores: u64,
    pub well_formed: u64,
    /// How often the calls on a store left other slices, where none may.
    pub written: u64,
    /// The first differences in words.
    pub shown: Vec<String>,
}

impl Run {
    pub fn new(build: Option<Build>) -> Self {
        let tallies = CALLS.iter().map(|call| Tally::new(call, build)).collect();
        Run { build, tallies, stores: 0, well_formed: 0, written: 0, shown: Vec::new() }
    }

    /// Whether each call was made this often, times its own number, where the Rust may be run, or as often as it asks.
    pub fn has(&self, count: u64) -> bool {
        self.tallies.iter().all(|tally| tally.runs * tally.call.for_one_run >= count * tally.call.times)
    }

    /// Makes each call this often, times its own number, on a store, and keeps what is different with what is said of it.
    pub fn judge(&mut self, tried: &mut Tried, inputs: &Inputs, calls: u64, random: &mut Random, store: &str) {
        self.count_store(tried.well_formed);
        self.make_calls(On::Grown, tried, inputs, calls, random, store);
        for (on, change) in PREPARED {
            let mut random = random.clone();
            let taken = tried.prepare(change, &mut random);
            let own = taken.as_ref().map(|_| Inputs::of(&tried.before));
            self.make_calls(on, tried, own.as_ref().unwrap_or(inputs), calls, &mut random, store);
            if let Some(taken) = taken {
                tried.take(&taken, true);
            }
        }
    }

    /// Makes the calls that have this made of the store first.
    fn make_calls(&mut self, on: On, tried: &mut Tried, inputs: &Inputs, calls: u64, random: &mut Random, store: &str) {
        for (place, call) in CALLS.iter().enumerate().filter(|(_, call)| call.on == on) {
            let mut copy = random.clone();
            let random = if call.apart { &mut copy } else { &mut *random };
            for _ in 0..calls * call.times {
                tried.vary(call, random);
                let numbers = (call.any)(inputs, random);
                self.make_call(place, tried, numbers, random, store);
            }
            tried.restore();
        }
        self.end_store(tried, store);
    }

    /// Counts a store on which calls are made.
    pub fn count_store(&mut self, well_formed: bool) {
        self.stores += 1;
        self.well_formed += u64::from(well_formed);
    }

    /// Makes one call with these numbers.
    pub fn make_call(&mut self, place: usize, tried: &mut Tried, numbers: Numbers, random: &mut Random, store: &str) {
        tried.lend(&CALLS[place], numbers, random);
        let told = judge(&mut self.tallies[place], tried, numbers, self.build);
        self.show(told, store);
    }

    /// Looks for what was written where nothing may be, after all calls on a store.
    pub fn end_store(&mut self, tried: &Tried, store: &str) {
        for side in tried.written() {
            self.written += 1;
            self.show(vec![format!("{side} wrote to the store")], store);
        }
    }

    /// Keeps the first differences, with what is said of the store.
    fn show(&mut self, told: Vec<String>, store: &str) {
        for text in told {
            if self.shown.len() < SHOWN {
                self.shown.push(format!("{text} ({store})"));
            }
        }
    }

    /// Whether there was no difference that is not listed.
    pub fn is_right(&self) -> bool {
        self.written == 0 && self.tallies.iter().all(|tally| tally.unlisted + tally.wrong == 0)
    }

    /// The refusals and listed differences that were met more seldom than this.
    pub fn missed(&self, least: u64) -> Vec<String> {
        let mut missed = Vec::new();
        for tally in &self.tallies {
            let refusals = tally.call.refusals.iter().map(|number| format!("refused with {number}"));
            let differences = tally.differences.iter().map(|name| name.to_string());
            let listed = tally.listed.iter().filter(|_| original::IS_THERE);
            for (name, &met) in refusals.zip(&tally.refused).chain(differences.zip(listed)) {
                if met < least {
                    missed.push(format!("{}: {name}: {met}", tally.call.name));
                }
            }
        }
        missed
    }
}
