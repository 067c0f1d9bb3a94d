//! What is counted for one call.

use crate::answer::{Answer, Build};
use crate::archive::{Numbers, Reply};
use crate::call::list::Call;
use crate::call::original;
use crate::check::proved::reply;
use crate::listed::Listed;

#[derive(Clone)]
pub struct Tally {
    pub call: &'static Call,
    /// The names of what is listed for the call in this build.
    pub differences: Vec<&'static str>,
    pub calls: u64,
    /// How often the model answers.
    pub answered: u64,
    /// How often the model refuses, for each number of the call.
    pub refused: Vec<u64>,
    /// The calls for which the Rust may be run, and is run where it is there.
    pub runs: u64,
    pub equal: u64,
    /// For each listed difference of the call, how often it is met.
    pub listed: Vec<u64>,
    pub unlisted: u64,
    /// How often ours is not what the model says.
    pub wrong: u64,
}

impl Tally {
    pub fn new(call: &'static Call, build: Option<Build>) -> Self {
        let mut differences = call.differences.to_vec();
        if build == Some(Build::Checked) {
            differences.extend(call.when_checked);
        }
        let (refused, listed) = (vec![0; call.refusals.len()], vec![0; differences.len()]);
        Tally { call, differences, calls: 0, answered: 0, refused, runs: 0, equal: 0, listed, unlisted: 0, wrong: 0 }
    }

    /// Adds what was counted for the same call in the same build.
    pub fn add(&mut self, other: &Tally) {
        self.calls += other.calls;
        self.answered += other.answered;
        self.runs += other.runs;
        self.equal += other.equal;
        self.unlisted += other.unlisted;
        self.wrong += other.wrong;
        let sums = self.refused.iter_mut().chain(&mut self.listed);
        sums.zip(other.refused.iter().chain(&other.listed)).for_each(|(sum, count)| *sum += count);
    }

    /// How often the Rust was run.
    pub fn compared(&self) -> u64 {
        if original::IS_THERE {
            self.runs
        } else {
            0
        }
    }

    /// Counts a call and tells where ours is not what the model says; `kept` is whether the slices are as they must be.
    pub fn against_the_model(
        &mut self,
        numbers: Numbers,
        ours: &Reply,
        model: Result<u64, u64>,
        kept: bool,
    ) -> Option<String> {
        self.calls += 1;
        self.count(model);
        let model = reply(model);
        if *ours == model && kept {
            return None;
        }
        self.wrong += 1;
        let slices = if kept { "" } else { ", and other slices" };
        Some(format!("{}: ours {ours}, the model {model}{slices}", self.call.with(numbers)))
    }

    /// Equal where nothing is listed, and exactly as listed elsewhere; `same` is whether equal answers left equal bytes.
    pub fn against_the_rust(
        &mut self,
        numbers: Numbers,
        (ours, rust): (Answer, Answer),
        listed: Option<Listed>,
        same: bool,
    ) -> Option<String> {
        match &listed {
            None if ours == rust && same => self.equal += 1,
            Some(rule) if ours != rust && ours == rule.ours && rust == rule.rust => self.count_listed(rule.name),
            _ => {
                self.unlisted += 1;
                let bytes = if same { "" } else { ", and other bytes" };
                let there = listed.map_or(String::new(), |Listed { name, .. }| format!(", listed there \"{name}\""));
                return Some(format!("{}: ours {ours}, the Rust {rust}{bytes}{there}", self.call.with(numbers)));
            }
        }
        None
    }

    fn count(&mut self, answer: Result<u64, u64>) {
        match answer {
            Ok(_) => self.answered += 1,
            Err(number) => {
                let place = self.call.refusals.iter().position(|&refusal| refusal == number);
                self.refused[place.expect("a refusal of the call")] += 1;
            }
        }
    }

    fn count_listed(&mut self, name: &str) {
        let place = self.differences.iter().position(|&difference| difference == name);
        self.listed[place.expect("a listed difference of the call")] += 1;
    }
}
