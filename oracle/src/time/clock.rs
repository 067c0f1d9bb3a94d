//! Times the sides of a case, which take turns in short visits. The turns that were disturbed least count.

use super::case::{Case, Side};
use super::held::Held;
use super::unchecked;
use crate::archive::{self, NO_NUMBERS};
use std::arch::asm;
use std::hint::black_box;
use std::time::{Duration, Instant};

/// How long one visit takes, at least.
const VISIT: Duration = Duration::from_millis(50);
/// Rounds of turns in one visit, at least.
const ROUNDS: usize = 4;
/// Of this many turns one counts, and of as many times four one is too short to be believed.
const ONE_OF: usize = 8;
/// By how much a ratio may differ between every other visit and the rest and yet be told, where it is 1 or less; else by
/// this part of it.
const NOISE: f64 = 0.2;

/// The nanoseconds that each turn of each side took, by side.
pub struct Visit(Vec<Vec<f64>>);

/// The nanoseconds of one call.
pub struct Times {
    pub check: f64,
    pub ours: f64,
    pub unchecked: f64,
    pub others: Vec<Against>,
}

/// The nanoseconds of what a call is timed against, and whether the ratio without the check is told.
pub struct Against {
    pub time: f64,
    pub is_told: bool,
}

impl Visit {
    /// Times every side for a while, in turns that go forth and back.
    pub fn new(case: &Case) -> Self {
        let (mut held, sides) = (case.store(), case.sides());
        let mut taken = vec![Vec::new(); sides.len()];
        let begun = Instant::now();
        for round in 0.. {
            if round >= ROUNDS && begun.elapsed() >= VISIT {
                break;
            }
            for k in 0..sides.len() {
                let side = if round % 2 == 0 { k } else { sides.len() - 1 - k };
                taken[side].push(turn(case, sides[side], &mut held));
            }
        }
        Visit(taken)
    }
}

impl Times {
    /// Those of all visits to a case.
    pub fn of(visits: &[Visit]) -> Self {
        let all = times(visits.iter());
        let halves = [times(visits.iter().step_by(2)), times(visits.iter().skip(1).step_by(2))];
        let is_told = |side: usize| {
            let [one, other] = halves.each_ref().map(|half| half[2] / half[side]);
            (one - other).abs() <= NOISE * one.max(1.0)
        };
        let others = (3..all.len()).map(|side| Against { time: all[side], is_told: is_told(side) }).collect();
        Times { check: all[0], ours: all[1], unchecked: all[2], others }
    }
}

/// The time of each side but the clock's in some visits, less that of the clock.
fn times<'a>(visits: impl Iterator<Item = &'a Visit> + Clone) -> Vec<f64> {
    let sides = visits.clone().next().map_or(0, |visit| visit.0.len());
    let of = |side: usize| least(visits.clone().flat_map(|visit| visit.0[side].iter().copied()).collect());
    (1..sides).map(|side| of(side) - of(0)).collect()
}

/// The nanoseconds of one call. Before it the store is what it was, and the check has read it, so that each side finds it
/// in the same caches; what answers in the check's place was called too, as the check is, and is in them as well. No call
/// begins before all that was before it is done.
fn turn(case: &Case, side: Side, held: &mut Held) -> f64 {
    held.restore();
    black_box(held.call(archive::check, NO_NUMBERS));
    black_box(held.call(unchecked::check, NO_NUMBERS));
    let case = black_box(case);
    settle();
    let begun = Instant::now();
    settle();
    for left in (0..case.in_a_row()).rev() {
        case.run(side, held, left);
        settle();
    }
    begun.elapsed().as_nanos() as f64 / case.in_a_row() as f64
}

/// Waits until all that is under way is done, and then until what was written has arrived.
fn settle() {
    // SAFETY: no register and no memory is changed.
    #[cfg(target_arch = "x86_64")]
    unsafe {
        asm!("lfence", "mfence", "lfence")
    };
    // SAFETY: as above.
    #[cfg(target_arch = "aarch64")]
    unsafe {
        asm!("dsb sy", "isb")
    };
}

/// The mean of the turns that were disturbed least.
fn least(mut turns: Vec<f64>) -> f64 {
    turns.sort_by(f64::total_cmp);
    let counted = &turns[turns.len() / (4 * ONE_OF)..turns.len().div_ceil(ONE_OF)];
    counted.iter().sum::<f64>() / counted.len() as f64
}
