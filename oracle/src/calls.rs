//! Compares the proved calls on a store with a model that is written from document 01 and, where the Rust is there,
//! with the Rust's own functions: on random stores, on the largest ones, and with directed numbers on chosen ones.
//! usage: calls wrapping|checked|model COUNT [FILE], to write the counts to a file too

#[allow(dead_code)] // has the answers of the helpers too
mod answer;
#[allow(dead_code)] // declares the helpers too
mod archive;
mod call;
#[allow(dead_code)] // compares the check too
mod check;
#[allow(dead_code)] // lists the differences of the helpers too
mod listed;
#[allow(dead_code)] // has what the check is compared with too
mod model;
#[cfg(feature = "rust")]
mod panics;
mod random;

use answer::Build;
use call::{batch, counts, directed, large, original, report};
use std::process::ExitCode;

/// Each refusal and each listed difference must be met once in this many random calls or more often, and by a directed one.
const CALLS_FOR_ONE: u64 = 1000;

fn main() -> ExitCode {
    let arguments: Vec<String> = std::env::args().skip(1).collect();
    let Some((build, count)) = wanted(&arguments) else {
        eprintln!("usage: calls wrapping|checked|model COUNT [FILE], and model exactly where the Rust is not there");
        return ExitCode::from(2);
    };
    original::open();
    let runs = [batch::compare(build, count), large::compare(build, count), directed::compare(build)];
    let missed = [runs[0].missed(count / CALLS_FOR_ONE), runs[2].missed(1)].concat();
    report::print(build, &runs);
    report::verdict(&runs, &missed);
    if let Some(file) = arguments.get(2) {
        counts::write(file, &runs).expect("the counts can be written");
    }
    if runs.iter().all(|run| run.is_right()) && missed.is_empty() {
        ExitCode::SUCCESS
    } else {
        ExitCode::FAILURE
    }
}

/// The build of the Rust, where it is there, and the number of calls that the arguments ask for.
fn wanted(arguments: &[String]) -> Option<(Option<Build>, u64)> {
    let ([build, count] | [build, count, _]) = arguments else { return None };
    let build = match build.as_str() {
        "wrapping" => Some(Build::Wrapping),
        "checked" => Some(Build::Checked),
        "model" => None,
        _ => return None,
    };
    (build.is_some() == original::IS_THERE).then_some((build, count.parse().ok()?))
}
