//! What is counted.

use crate::check::changes;

/// How many differences are printed.
const SHOWN: usize = 5;

/// Each rule must fail alone, and each kind of change be made, once in this many stores or more often.
const STORES_FOR_ONE: u64 = 5000;

/// The calls that grow stores, in the order in which they are counted.
pub const CALLS: [&str; 5] = ["uvmcreate", "map", "uvm_alloc", "uvm_unmap", "free"];

/// Stores by what the model says of them.
#[derive(Clone, Copy, Default)]
pub struct Split {
    pub well_formed: u64,
    pub not: u64,
}

/// How often a rule fails: at all, before the others, and alone.
#[derive(Clone, Copy, Default)]
pub struct Failures {
    pub all: u64,
    pub first: u64,
    pub alone: u64,
}

/// How often there was an answer, and how often a refusal.
#[derive(Clone, Copy, Default)]
pub struct Answers {
    pub answered: u64,
    pub refused: u64,
}

pub struct Tally {
    pub built: Split,
    pub changed: Split,
    pub rules: [Failures; 5],
    /// For each kind of change, the stores in which it was made.
    pub kinds: Vec<Split>,
    /// For each call of the model, what it said.
    pub calls: [Answers; 5],
    /// What the check said of lengths.
    pub lengths: Answers,
    pub set_ups: Answers,
    pub differences: u64,
    /// The first differences in words, each with its batch.
    pub shown: Vec<(u64, String)>,
}

impl Split {
    pub fn total(&self) -> u64 {
        self.well_formed + self.not
    }

    pub fn count(&mut self, well_formed: bool) {
        if well_formed {
            self.well_formed += 1;
        } else {
            self.not += 1;
        }
    }

    fn add(&mut self, other: &Split) {
        self.well_formed += other.well_formed;
        self.not += other.not;
    }
}

impl Answers {
    pub fn count(&mut self, answer: Result<u64, u64>) {
        match answer {
            Ok(_) => self.answered += 1,
            Err(_) => self.refused += 1,
        }
    }

    fn add(&mut self, other: &Answers) {
        self.answered += other.answered;
        self.refused += other.refused;
    }
}

impl Tally {
    pub fn new() -> Self {
        Tally {
            built: Split::default(),
            changed: Split::default(),
            rules: Default::default(),
            kinds: vec![Split::default(); changes::count()],
            calls: Default::default(),
            lengths: Answers::default(),
            set_ups: Answers::default(),
            differences: 0,
            shown: Vec::new(),
        }
    }

    /// Counts the rules that fail in a store.
    pub fn count_rules(&mut self, fails: [bool; 5]) {
        let failing: Vec<usize> = (0..5).filter(|&rule| fails[rule]).collect();
        for (place, &rule) in failing.iter().enumerate() {
            self.rules[rule].all += 1;
            self.rules[rule].first += u64::from(place == 0);
            self.rules[rule].alone += u64::from(failing.len() == 1);
        }
    }

    /// Counts a difference, and keeps the first of them in words.
    pub fn differ(&mut self, batch: u64, text: String) {
        self.differences += 1;
        self.show(batch, text);
    }

    /// The rules that failed alone, and the kinds of change that were made, too seldom for this many stores.
    pub fn missed(&self, stores: u64) -> Vec<String> {
        let least = stores / STORES_FOR_ONE;
        let rules = self.rules.iter().enumerate().map(|(place, rule)| (format!("W{} alone", place + 1), rule.alone));
        let kinds = changes::all().zip(&self.kinds).map(|(kind, split)| (kind.name.to_string(), split.total()));
        let few = rules.chain(kinds).filter(|counted| counted.1 < least);
        few.map(|(name, count)| format!("{name}: {count}, expected {least} or more")).collect()
    }

    /// Adds what was counted elsewhere.
    pub fn add(&mut self, other: Tally) {
        self.built.add(&other.built);
        self.changed.add(&other.changed);
        for (sum, rule) in self.rules.iter_mut().zip(&other.rules) {
            sum.all += rule.all;
            sum.first += rule.first;
            sum.alone += rule.alone;
        }
        for (sum, kind) in self.kinds.iter_mut().zip(&other.kinds) {
            sum.add(kind);
        }
        for (sum, call) in self.calls.iter_mut().zip(&other.calls) {
            sum.add(call);
        }
        self.lengths.add(&other.lengths);
        self.set_ups.add(&other.set_ups);
        self.differences += other.differences;
        for (batch, text) in other.shown {
            self.show(batch, text);
        }
    }

    /// Keeps a difference if it is among the first.
    fn show(&mut self, batch: u64, text: String) {
        let place = self.shown.partition_point(|shown| shown.0 <= batch);
        self.shown.insert(place, (batch, text));
        self.shown.truncate(SHOWN);
    }
}
