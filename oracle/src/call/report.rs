//! What is printed: one table for each build, and the differences.

use crate::answer::Build;
use crate::call::original;
use crate::call::run::Run;
use crate::call::tally::Tally;
use crate::random::SEED;

/// Prints all that was counted: on random stores, on the largest ones, and with directed numbers.
pub fn print(build: Option<Build>, runs: &[Run; 3]) {
    let sides = match build {
        Some(Build::Wrapping) => "The calls on a store, the model and the Rust, wrapping",
        Some(Build::Checked) => "The calls on a store, the model and the Rust, with overflow checks",
        None => "The calls on a store and the model",
    };
    println!("{sides}, from seed {SEED:#x}");
    for (part, run) in ["random", "of the largest", "chosen"].iter().zip(runs) {
        println!("{:>7} stores {part}, {} of them well formed", run.stores, run.well_formed);
    }
    let (first, last) = ("call                           calls   largest  directed", "listed differences");
    println!("{first} {:>9} {:>9} {:>9}  {last}", "answered", "the Rust", "equal");
    let tallies = total(runs);
    for (place, tally) in tallies.iter().enumerate() {
        row(tally, runs[1].tallies[place].calls, runs[2].tallies[place].calls);
    }
    for tally in &tallies {
        let refusals = tally.call.refusals.iter().zip(&tally.refused);
        let refusals: Vec<String> = refusals.map(|(number, count)| format!("{count} with {number}")).collect();
        println!("{:26} refused {}", tally.call.name, refusals.join(", "));
    }
}

/// What was counted for each call in all parts.
pub fn total(runs: &[Run; 3]) -> Vec<Tally> {
    let mut sums: Vec<Tally> = runs[0].tallies.clone();
    for run in &runs[1..] {
        sums.iter_mut().zip(&run.tallies).for_each(|(sum, tally)| sum.add(tally));
    }
    sums
}

/// A call's line in the table.
fn row(tally: &Tally, large: u64, directed: u64) {
    let run = tally.compared();
    let Tally { call, calls, answered, equal, .. } = tally;
    let listed = tally.differences.iter().zip(&tally.listed).filter(|listed| *listed.1 > 0);
    let listed: Vec<String> = listed.map(|(name, count)| format!("{count} {name}")).collect();
    let made = format!("{:26} {calls:>9} {large:>9} {directed:>9}", call.name);
    let line = format!("{made} {answered:>9} {run:>9} {equal:>9}  {}", listed.join("; "));
    println!("{}", line.trim_end());
}

/// Prints what is wrong, and the verdict.
pub fn verdict(runs: &[Run; 3], missed: &[String]) {
    for text in runs.iter().flat_map(|run| &run.shown) {
        println!("DIFFERENT {text}");
    }
    for text in missed {
        println!("TOO FEW {text}");
    }
    let tallies = total(runs);
    let sum = |column: fn(&Tally) -> u64| -> u64 { tallies.iter().map(column).sum() };
    let (calls, wrong) = (sum(|tally| tally.calls), sum(|tally| tally.wrong));
    let written: u64 = runs.iter().map(|run| run.written).sum();
    println!("{calls} compared with the model, {wrong} differences; {written} stores written to");
    if original::IS_THERE {
        let (rust, unlisted) = (sum(Tally::compared), sum(|tally| tally.unlisted));
        let listed = sum(|tally| tally.listed.iter().sum());
        println!("{rust} compared with the Rust, {listed} listed differences, {unlisted} unlisted");
    }
}
