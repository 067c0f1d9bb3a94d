//! Times proved calls, with their check and without it, against the Rust's own and against the C library, on the same memory,
//! in turns. First all are compared on each case that is timed. It prints a line for each case, its parts apart by tabs: the
//! call, T, n, nanoseconds with the check, of the check, - where there is none, and without it; then for each other side its
//! name, its nanoseconds, and 1 where the ratio to it is told.
//! usage: times CRATE..

#[allow(dead_code)] // declares the helpers too
#[macro_use]
mod archive;
mod time;

use std::process::ExitCode;
use time::calls::CALLS;
use time::case::Case;
use time::clock::{Times, Visit};
use time::held;

/// To each case, between visits to the others: a disturbed while spoils some visits, not a case.
const VISITS: usize = 40;

fn main() -> ExitCode {
    let parts: Vec<String> = std::env::args().skip(1).collect();
    let calls = CALLS.iter().filter(|call| parts.iter().any(|part| part == call.part));
    let mut visited: Vec<_> = calls.flat_map(Case::all).map(|case| (case, Vec::new())).collect();
    held::open();
    for (case, _) in &visited {
        if let Err(difference) = case.compare() {
            eprintln!("times: {case}: {difference}");
            return ExitCode::FAILURE;
        }
    }
    for _ in 0..VISITS {
        for (case, visits) in &mut visited {
            visits.push(Visit::new(case));
        }
    }
    for (case, visits) in visited {
        print(&case, &Times::of(&visits));
    }
    ExitCode::SUCCESS
}

/// Prints the line of a case.
fn print(case: &Case, times: &Times) {
    let Times { check, ours, unchecked, others } = times;
    let check = if case.call.has_check() { format!("{check:.2}") } else { "-".to_string() };
    print!("{}\t{}\t{}\t{ours:.2}\t{check}\t{unchecked:.2}", case.call.name, case.tables, case.pages);
    for ((name, _), against) in case.others().iter().zip(others) {
        print!("\t{name}\t{:.2}\t{}", against.time, u8::from(against.is_told));
    }
    println!();
}
