//! The list as Rattle source.

use crate::answer::Answer;
use crate::archive::NO_NUMBERS;
use crate::vector::chosen::{Chosen, FRAMES, NAMES, TABLES};
use crate::vector::record::Row;

/// The numbers of a row.
const COLUMNS: usize = 10;

/// The whole file.
pub fn text(rows: &[Row]) -> String {
    let (count, numbers) = (rows.len(), COLUMNS * rows.len());
    let mut text = format!(
        "// Made by `oracle/run vectors`, which has the Rust, wrapping, make calls on stores of {TABLES} tables and {FRAMES} frames.
// A row: which call (0 a fresh store, then {}, {},
// {},
// {}),
// its five numbers, what the Rust answers (0 a value, 1 None, 2 a panic), that value, the refusal where docs/DIFFERENCES.md lists
// another answer here, and the digest of the store and the lent bytes afterwards.
pub const ROWS: usize = {count};

pub const COLUMNS: usize = {COLUMNS};

pub const LIST: [u64; {numbers}] = [
",
        NAMES[..3].join(", "),
        NAMES[3..7].join(", "),
        NAMES[7..16].join(", "),
        NAMES[16..].join(", ")
    );
    for row in rows {
        text += &format!("    // {}\n", row.made);
        for number in columns(row) {
            text += &format!("    {number:#x},\n");
        }
    }
    text + "];\n"
}

fn columns(row: &Row) -> [u64; COLUMNS] {
    let (call, [a, b, c, d, e]) = match row.made {
        Chosen::Fresh => (0, NO_NUMBERS),
        Chosen::Helper(name, a, b) => (place(name), [a, b, 0, 0, 0]),
        Chosen::Call(name, numbers) => (place(name), numbers),
    };
    let (kind, value) = match row.rust {
        Answer::Done(value) => (0, value),
        Answer::Panicked => (2, 0),
        Answer::Refused(..) | Answer::Pages(..) => (1, 0),
    };
    [call, a, b, c, d, e, kind, value, row.listed.unwrap_or(0), row.digest]
}

/// The number of a call.
fn place(name: &str) -> u64 {
    1 + NAMES.iter().position(|&named| named == name).expect("a name of the list") as u64
}
