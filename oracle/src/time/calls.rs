//! The calls that are timed: what each finds, what it is called with, what it is timed against, and for how many pages.

use super::held::{Held, Lent};
use super::{memory, rust, stores, unchecked};
use crate::archive::{self, Numbers, NO_NUMBERS};

/// What a call is timed against, and its answer where it has the one that ours has.
pub type Other = fn(&mut Held, Numbers) -> Option<u64>;

/// A call. In few tables its check is short; in 512 it is long.
pub struct Call {
    /// The crate that it is of.
    pub part: &'static str,
    pub name: &'static str,
    /// With its check, and without it.
    pub ours: Lent,
    pub unchecked: Lent,
    /// The Rust's, and for how many pages it is right.
    pub rust: Option<Other>,
    pub right_up_to: u64,
    /// That of the C library, and its name.
    pub library: Option<(&'static str, Other)>,
    /// Makes the store that it finds, for a number of pages.
    pub finds: fn(&mut Held, u64),
    /// What it is called with, for a number of pages and the calls that follow it in a row, each for pages below its own.
    pub numbers: fn(u64, u64) -> Numbers,
    /// Whether it has a buffer: of a byte less than the pages have, with which the Rust does not ask for a page more.
    pub has_buffer: bool,
    /// Whether many are made in a row where there is one page or none: each finds what the first found, or its own page.
    pub repeats: bool,
    /// The numbers of pages in 8 tables with 64 frames, and in 512 with 4,096; 0 where it has none.
    pub in_few: &'static [u64],
    pub in_many: &'static [u64],
}

impl Call {
    /// Whether it begins with the check: crate store lies below it.
    pub fn has_check(&self) -> bool {
        self.part != "store"
    }
}

/// A call of a crate that is timed against the Rust's of this name.
macro_rules! call {
    ($part:ident, $name:ident) => {
        Call { rust: Some(rust::$name), ..call!($part, $name, without the Rust) }
    };
    ($part:ident, $name:ident, without the Rust) => {
        Call {
            part: stringify!($part),
            name: stringify!($name),
            ours: archive::$name,
            unchecked: unchecked::$name,
            rust: None,
            right_up_to: u64::MAX,
            library: None,
            finds: stores::empty,
            numbers: |_, _| NO_NUMBERS,
            has_buffer: false,
            repeats: false,
            in_few: &[1],
            in_many: &[1],
        }
    };
}

/// A size of so many pages, behind a root.
const SIZE: fn(u64, u64) -> Numbers = |pages, _| [0, 4096 * pages, 0, 0, 0];
/// Pages with pool frames, in few tables and in many.
const POOL: (&[u64], &[u64]) = (&[1, 64], &[1, 512, 4096]);
/// Pages with foreign frames, likewise.
const FOREIGN: (&[u64], &[u64]) = (&[1, 512], &[1, 512, 4096, 130_000]);
/// No pages.
const NONE: &[u64] = &[0];

/// Every call, in the order of document 01, after the set-up.
pub static CALLS: [Call; 18] = [
    Call {
        library: Some(("memset", memory::set_up)),
        in_few: NONE,
        in_many: NONE,
        ..call!(store, set_up, without the Rust)
    },
    Call { finds: stores::mapped, repeats: true, ..call!(walk, pgt_translate) },
    Call { in_few: NONE, in_many: NONE, repeats: true, ..call!(walk, as_satp) },
    Call { in_few: NONE, in_many: NONE, ..call!(map, uvmcreate) },
    Call {
        numbers: |pages, _| [0, 0, stores::FOREIGN, 4096 * pages, stores::RIGHTS],
        in_few: FOREIGN.0,
        in_many: FOREIGN.1,
        ..call!(map, map)
    },
    Call { has_buffer: true, ..call!(grow, uvm_init) },
    Call { numbers: |pages, _| [0, 0, 4096 * pages, 0, 0], in_few: POOL.0, in_many: POOL.1, ..call!(grow, uvm_alloc) },
    Call {
        finds: stores::grown,
        numbers: |pages, left| [0, 4096 * pages * (left + 1), 4096 * pages * left, 0, 0],
        repeats: true,
        in_few: POOL.0,
        in_many: POOL.1,
        ..call!(grow, uvm_dealloc)
    },
    Call {
        finds: stores::mapped,
        numbers: |pages, left| [0, 4096 * pages * left, pages, 0, 0],
        repeats: true,
        in_few: FOREIGN.0,
        in_many: FOREIGN.1,
        ..call!(unmap, uvm_unmap)
    },
    Call { finds: stores::mapped, repeats: true, ..call!(unmap, uvm_clear) },
    Call {
        library: Some(("memcpy", memory::uvm_copy)),
        finds: stores::with_child,
        numbers: |pages, _| [0, 1, 4096 * pages, 0, 0],
        in_few: &[1, 32],
        in_many: &[1, 512, 2048],
        ..call!(copies, uvm_copy)
    },
    Call { library: Some(("memcpy", memory::copy_out)), ..copy(call!(copies, copy_out)) },
    Call { library: Some(("memcpy", memory::copy_in)), right_up_to: 1, ..copy(call!(copies, copy_in)) },
    Call { library: Some(("memccpy", memory::copy_in_str)), right_up_to: 1, ..copy(call!(copies, copy_in_str)) },
    Call { finds: stores::tree, in_few: &[3], in_many: &[1, 100, 500], ..call!(release, free) },
    Call { finds: stores::grown, ..release(call!(release, uvm_free)) },
    Call { finds: stores::shared, ..release(call!(release, free_shared_user_pagetable)) },
    Call { finds: stores::process, ..release(call!(release, proc_free_pagetable)) },
];

/// A copy to or from the buffer.
const fn copy(call: Call) -> Call {
    Call { finds: stores::grown, has_buffer: true, repeats: true, in_few: POOL.0, in_many: POOL.1, ..call }
}

/// A release of pages from 0 on.
const fn release(call: Call) -> Call {
    Call { numbers: SIZE, in_few: POOL.0, in_many: POOL.1, ..call }
}
