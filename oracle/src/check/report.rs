//! What is printed.

use crate::check::changes;
use crate::check::tally::{Answers, Split, Tally, CALLS};
use crate::random::SEED;

/// Prints all that was counted.
pub fn print(tally: &Tally) {
    let stores = tally.built.total() + tally.changed.total();
    println!("The check and the model of document 01: {stores} stores from seed {SEED:#x}");
    answers("lengths of slices", &tally.lengths);
    answers("set-ups", &tally.set_ups);
    for (name, call) in CALLS.iter().zip(&tally.calls) {
        answers(&format!("the model's {name}"), call);
    }
    println!("{:52} {:>9} {:>12} {:>10}", "stores", "all", "well formed", "not");
    split("as built", &tally.built);
    split("changed", &tally.changed);
    for (kind, counted) in changes::all().zip(&tally.kinds) {
        split(&format!("  {}", kind.name), counted);
    }
    println!("{:52} {:>9} {:>12} {:>10}", "rule", "fails", "fails first", "alone");
    for (place, rule) in tally.rules.iter().enumerate() {
        println!("W{:<51} {:>9} {:>12} {:>10}", place + 1, rule.all, rule.first, rule.alone);
    }
}

/// Prints what is wrong, and the verdict.
pub fn verdict(tally: &Tally, missed: &[String]) {
    for (_, text) in &tally.shown {
        println!("DIFFERENT {text}");
    }
    for text in missed {
        println!("TOO FEW {text}");
    }
    println!("{} differences", tally.differences);
}

fn answers(name: &str, counted: &Answers) {
    println!("{name:24} {:>9} answered {:>9} refused", counted.answered, counted.refused);
}

fn split(name: &str, counted: &Split) {
    println!("{name:52} {:>9} {:>12} {:>10}", counted.total(), counted.well_formed, counted.not);
}
