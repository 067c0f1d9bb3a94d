//! What is printed: one table for each build, and the unlisted differences.

use crate::answer::{Answer, Build};
use crate::compare::{Helper, Tally};
use crate::listed::Listed;
use crate::random::SEED;
use std::fs;
use std::io::Result;

/// The head of a build's table.
pub fn heading(build: Build, boundaries: usize, count: u64) {
    let build = match build {
        Build::Wrapping => "The Rust, wrapping",
        Build::Checked => "The Rust, with overflow checks",
    };
    println!("{build}: {boundaries} boundary values, {count} random inputs a helper from seed {SEED:#x}");
    println!("{:28} {:>9} {:>11} {:>11}  listed differences", "helper", "boundary", "random", "equal");
}

/// A helper's line in the table.
pub fn row(tally: &Tally) {
    let mut line = format!("{:28} {:>9} {:>11} {:>11}", tally.name, tally.boundary, tally.random, tally.equal);
    for (place, (name, count)) in tally.listed.iter().enumerate() {
        line += &format!("{} {count} {name}", if place == 0 { " " } else { ";" });
    }
    if tally.unlisted > 0 {
        line += &format!("  UNLISTED {}", tally.unlisted);
    }
    println!("{line}");
}

/// The last lines: the sum of each column, and the verdict.
pub fn total(tallies: &[Tally]) {
    let sum = |column: fn(&Tally) -> u64| -> u64 { tallies.iter().map(column).sum() };
    let (boundary, random) = (sum(|tally| tally.boundary), sum(|tally| tally.random));
    let listed = sum(|tally| tally.listed.iter().map(|entry| entry.1).sum());
    let unlisted = sum(|tally| tally.unlisted);
    println!("{:28} {boundary:>9} {random:>11} {:>11}  {listed}", "total", sum(|tally| tally.equal));
    println!("{} compared, {listed} listed differences, {unlisted} unlisted", boundary + random);
}

/// Writes what was counted as lines of fields with tabs between, of which oracle/counts.awk makes the tables of
/// docs/DIFFERENCES.md.
pub fn write(file: &str, tallies: &[Tally]) -> Result<()> {
    let mut lines = String::new();
    for Tally { name, boundary, random, equal, listed, unlisted } in tallies {
        let number: u64 = listed.iter().map(|entry| entry.1).sum();
        lines += &format!("helper\t{name}\t{}\t{equal}\t{number}\t{unlisted}\n", boundary + random);
        for (difference, count) in listed {
            lines += &format!("helper's difference\t{name}\t{difference}\t{count}\n");
        }
    }
    fs::write(file, lines)
}

/// An unlisted difference: the helper, its input and both answers, and what the list says of it.
pub fn unlisted(helper: &Helper, input: (u64, u64), ours: Answer, rust: Answer, listed: Option<Listed>) {
    let input = match helper.two_inputs {
        true => format!("{:#x}, {:#x}", input.0, input.1),
        false => format!("{:#x}", input.0),
    };
    println!("UNLISTED {}({input}): ours {ours}, the Rust {rust}", helper.name);
    if let Some(Listed { name, ours, rust }) = listed {
        println!("         listed there: \"{name}\" with ours {ours}, the Rust {rust}");
    }
}
