//! Compares every proved helper with the Rust's own function, on boundary values and on random ones.
//! usage: oracle wrapping|checked COUNT [FILE], to write the counts to a file too

mod addresses;
mod answer;
#[allow(dead_code)] // declares the calls on a store too
mod archive;
mod compare;
mod entries;
mod listed;
mod panics;
mod random;
mod report;
mod rounding;
mod values;

use answer::Build;
use std::process::ExitCode;

fn main() -> ExitCode {
    let arguments: Vec<String> = std::env::args().skip(1).collect();
    let Some((build, count)) = wanted(&arguments) else {
        eprintln!("usage: oracle wrapping|checked COUNT [FILE]");
        return ExitCode::from(2);
    };
    panics::quiet_panics();
    let boundaries = values::boundaries();
    report::heading(build, boundaries.len(), count);
    let mut tallies = Vec::new();
    for helper in addresses::helpers().into_iter().chain(rounding::helpers()).chain(entries::helpers()) {
        let tally = compare::compare(&helper, build, &boundaries, count);
        report::row(&tally);
        tallies.push(tally);
    }
    report::total(&tallies);
    if let Some(file) = arguments.get(2) {
        report::write(file, &tallies).expect("the counts can be written");
    }
    if tallies.iter().all(|tally| tally.unlisted == 0) {
        ExitCode::SUCCESS
    } else {
        ExitCode::FAILURE
    }
}

/// The build and the number of random inputs that the arguments ask for.
fn wanted(arguments: &[String]) -> Option<(Build, u64)> {
    let ([build, count] | [build, count, _]) = arguments else { return None };
    let build = match build.as_str() {
        "wrapping" => Build::Wrapping,
        "checked" => Build::Checked,
        _ => return None,
    };
    Some((build, count.parse().ok()?))
}
