//! Document 01's samples of the calls, on the model, so that the model itself is held to the document.

use crate::check::tally::Tally;
use crate::model::calls::{as_satp, map, pgt_translate, uvm_alloc, uvmcreate};
use crate::model::walk::{mapped_pages, missing_tables};
use crate::model::Store;

/// Counts each sample that the model gets wrong as a difference.
pub fn compare(tally: &mut Tally) {
    let samples = [
        ("S10", missing_tables(&created(8), 0, 262_143..262_145) == 4),
        ("S11", missing_tables(&created(8), 0, 511..1024) == 3),
        ("S13, 1 to 4096", grown(1, 4096) == (Ok(4096), vec![])),
        ("S13, 0 to 4097", grown(0, 4097) == (Ok(4097), vec![0, 1])),
        ("S14, T = 2", map_one(2, 6) == Err(17)),
        ("S14, T = 3", map_one(3, 6) == Ok(2)),
        ("S15, permissions 1023", map_one(8, 1023).is_ok()),
        ("S15, permissions 1024", map_one(8, 1024) == Err(8)),
        ("the program's find", pgt_translate(&sample(), 0, 4100) == Ok(2_147_483_648)),
        ("as_satp of root 0", as_satp(&sample(), 0) == Ok(0x8000_0000_0010_0000)),
        ("the program's dump", dump() == [(0, 1_073_742_849), (512, 1_073_743_873), (1025, 536_870_935)]),
    ];
    for (name, _) in samples.iter().filter(|sample| !sample.1) {
        tally.differ(0, format!("the model gets sample {name} wrong"));
    }
}

/// A fresh store of T tables and 8 frames, with root 0.
fn created(tables: usize) -> Store {
    let mut store = Store::zeros(tables, 8);
    uvmcreate(&mut store).expect("a free table");
    store
}

/// The answer of `uvm_alloc`, and the pages that are mapped then.
fn grown(old: u64, new: u64) -> (Result<u64, u64>, Vec<u64>) {
    let mut store = created(8);
    let answer = uvm_alloc(&mut store, 0, old, new);
    let pages = mapped_pages(&store, 0);
    (answer, pages)
}

/// The answer of `map` for one page.
fn map_one(tables: usize, permissions: u64) -> Result<u64, u64> {
    map(&mut created(tables), 0, 4096, 0x8000_0000, 4096, permissions)
}

/// The store after the commands of the program's sample.
fn sample() -> Store {
    let mut store = created(8);
    map(&mut store, 0, 4096, 2_147_483_648, 4096, 22).expect("the sample's map");
    store
}

/// The words other than 0 in the program's sample, with their numbers.
fn dump() -> Vec<(usize, u64)> {
    sample().words.into_iter().enumerate().filter(|word| word.1 != 0).collect()
}
