//! Writes what was counted as lines of fields with tabs between, of which oracle/counts.awk makes the tables of
//! docs/DIFFERENCES.md.

use crate::call::report::total;
use crate::call::run::Run;
use crate::call::tally::Tally;
use std::fs;
use std::io::Result;

/// A line for each call, for each of its listed differences, and for the stores of each part.
pub fn write(file: &str, runs: &[Run; 3]) -> Result<()> {
    let mut lines = String::new();
    for (part, run) in ["random", "largest", "chosen"].iter().zip(runs) {
        lines += &format!("stores\t{part}\t{}\t{}\n", run.stores, run.well_formed);
    }
    for (place, tally) in total(runs).iter().enumerate() {
        let Tally { call, calls, equal, unlisted, wrong, .. } = tally;
        let [large, directed] = [1, 2].map(|part: usize| runs[part].tallies[place].calls);
        let (rust, listed) = (tally.compared(), tally.listed.iter().sum::<u64>());
        let name = call.name;
        lines +=
            &format!("call\t{name}\t{calls}\t{large}\t{directed}\t{wrong}\t{rust}\t{equal}\t{listed}\t{unlisted}\n");
        for (difference, count) in tally.differences.iter().zip(&tally.listed) {
            lines += &format!("difference\t{name}\t{difference}\t{count}\n");
        }
    }
    fs::write(file, lines)
}
