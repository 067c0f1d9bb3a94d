//! Writes what the Rust answers to chosen calls, as the Rattle source of the list that crates/vectors replays.
//! usage: vectors

mod addresses;
#[allow(dead_code)] // has the checked build too
mod answer;
#[allow(dead_code)] // the proved calls are not made here
mod archive;
#[allow(dead_code)] // compares the calls too
mod call;
#[allow(dead_code)] // compares the check too
mod check;
#[allow(dead_code)] // compares the helpers too
mod compare;
mod entries;
mod listed;
#[allow(dead_code)] // has what the check is compared with too
mod model;
mod panics;
#[allow(dead_code)] // has the numbers of the comparison too
mod random;
#[allow(dead_code)] // prints the comparison
mod report;
mod rounding;
#[allow(dead_code)] // has the inputs of the comparison
mod values;
mod vector;

use call::original;
use std::process::ExitCode;
use vector::{chosen, record, source};

fn main() -> ExitCode {
    if std::env::args().len() != 1 {
        eprintln!("usage: vectors");
        return ExitCode::from(2);
    }
    original::open();
    match record::rows(&chosen::all()) {
        Ok(rows) => {
            print!("{}", source::text(&rows));
            ExitCode::SUCCESS
        }
        Err(wrong) => {
            eprintln!("vectors: {wrong}");
            ExitCode::FAILURE
        }
    }
}
