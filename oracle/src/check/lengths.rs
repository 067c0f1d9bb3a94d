//! Slices of wrong lengths: our check refuses with 1 exactly where document 01 says so.

use crate::check::proved::{check, reply, Lent};
use crate::check::tally::Tally;
use crate::model::lengths::Lengths;
use crate::model::numbers::{MOST_FRAMES, MOST_TABLES};
use crate::model::Store;

const TABLES: [usize; 8] = [0, 1, 2, 3, 8, MOST_TABLES - 1, MOST_TABLES, MOST_TABLES + 1];
const FRAMES: [usize; 8] = [0, 1, 2, 3, 8, MOST_FRAMES - 1, MOST_FRAMES, MOST_FRAMES + 1];

/// Tries every length of every slice, around those of T tables and F frames, on zeros.
pub fn compare(tally: &mut Tally) {
    let longest = Lengths::of(MOST_TABLES + 1, MOST_FRAMES + 1);
    let zeros = Store::of_lengths(&each_longer(&longest));
    for tables in TABLES {
        for frames in FRAMES {
            for lengths in around(tables, frames) {
                judge(&zeros, &lengths, tally);
            }
        }
    }
    if zeros != Store::of_lengths(&zeros.lengths()) {
        tally.differ(0, "our check wrote to slices of wrong lengths".to_string());
    }
}

/// The right lengths for T tables and F frames, each slice also empty, one short and one long.
pub fn around(tables: usize, frames: usize) -> Vec<Lengths> {
    let right = Lengths::of(tables, frames);
    let mut all = Vec::new();
    for words in beside(right.words) {
        for table_marks in beside(right.table_marks) {
            for bytes in beside(right.bytes) {
                for frame_marks in beside(right.frame_marks) {
                    all.push(Lengths { words, table_marks, bytes, frame_marks });
                }
            }
        }
    }
    all
}

/// A length with both neighbours and 0, each once.
fn beside(length: usize) -> Vec<usize> {
    let mut lengths = vec![0, length.saturating_sub(1), length, length + 1];
    lengths.sort_unstable();
    lengths.dedup();
    lengths
}

/// Every slice one longer.
fn each_longer(lengths: &Lengths) -> Lengths {
    Lengths {
        words: lengths.words + 1,
        table_marks: lengths.table_marks + 1,
        bytes: lengths.bytes + 1,
        frame_marks: lengths.frame_marks + 1,
    }
}

/// Compares our check with the model on zeros of these lengths.
fn judge(zeros: &Store, lengths: &Lengths, tally: &mut Tally) {
    let ours = check(&Lent {
        words: &zeros.words[..lengths.words],
        table_marks: &zeros.table_marks[..lengths.table_marks],
        bytes: &zeros.bytes[..lengths.bytes],
        frame_marks: &zeros.frame_marks[..lengths.frame_marks],
    });
    let answer = if lengths.are_right() { Ok(1) } else { Err(1) };
    tally.lengths.count(answer);
    if ours != reply(answer) {
        tally.differ(0, format!("check of zeros: ours {ours}, the model {}: {lengths}", reply(answer)));
    }
}
