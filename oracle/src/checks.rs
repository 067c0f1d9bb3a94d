//! Compares the proved check and set-up with a model that is written from document 01, on many stores.
//! usage: checks COUNT, for 2 COUNT stores

#[allow(dead_code)] // declares the helpers too
mod archive;
mod check;
#[allow(dead_code, unused_imports)] // has calls that build no store too
mod model;
mod random;

use check::{fresh, lengths, report, samples, stores};
use std::process::ExitCode;

fn main() -> ExitCode {
    let arguments: Vec<String> = std::env::args().skip(1).collect();
    let Some(wanted) = wanted(&arguments) else {
        eprintln!("usage: checks COUNT, for 2 COUNT stores");
        return ExitCode::from(2);
    };
    let mut tally = stores::compare(wanted);
    samples::compare(&mut tally);
    lengths::compare(&mut tally);
    fresh::compare(&mut tally);
    let missed = tally.missed(wanted);
    report::print(&tally);
    report::verdict(&tally, &missed);
    if tally.differences == 0 && missed.is_empty() {
        ExitCode::SUCCESS
    } else {
        ExitCode::FAILURE
    }
}

/// The number of stores that the arguments ask for.
fn wanted(arguments: &[String]) -> Option<u64> {
    let [count] = arguments else { return None };
    count.parse::<u64>().ok()?.checked_mul(2)
}
