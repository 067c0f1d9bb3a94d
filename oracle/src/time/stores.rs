//! What a call finds: makes it of a store with one root, table 0, and nothing else, for this many pages.

use super::held::Held;
use crate::archive::{self, NO_NUMBERS};

/// Where pages lie that the store does not have: below the held window.
pub const FOREIGN: u64 = 0x8000_0000;
/// R, W, X and U.
pub const RIGHTS: u64 = 0x1e;
/// The two pages that a process has beside those from 0 on.
const TRAMPOLINE: u64 = 0x3f_ffff_f000;
const TRAPFRAME: u64 = 0x3f_ffff_e000;

/// Nothing more.
pub fn empty(_: &mut Held, _: u64) {}

/// Pages from 0 on with foreign frames.
pub fn mapped(held: &mut Held, pages: u64) {
    held.must(archive::map, [0, 0, FOREIGN, 4096 * pages, RIGHTS]);
}

/// Pages from 0 on with pool frames.
pub fn grown(held: &mut Held, pages: u64) {
    held.must(archive::uvm_alloc, [0, 0, 4096 * pages, 0, 0]);
}

/// The same, and table 1 a second root.
pub fn with_child(held: &mut Held, pages: u64) {
    held.must(archive::uvmcreate, NO_NUMBERS);
    grown(held, pages);
}

/// The pages of a thread group: those, and TRAMPOLINE.
pub fn shared(held: &mut Held, pages: u64) {
    grown(held, pages);
    held.must(archive::map, [0, TRAMPOLINE, FOREIGN, 4096, RIGHTS]);
}

/// The pages of a process: those, and TRAPFRAME.
pub fn process(held: &mut Held, pages: u64) {
    shared(held, pages);
    held.must(archive::map, [0, TRAPFRAME, FOREIGN + 4096, 4096, RIGHTS]);
}

/// So many tables, the root among them, instead of pages.
pub fn tree(held: &mut Held, tables: u64) {
    held.hang(tables as usize - 1);
}
