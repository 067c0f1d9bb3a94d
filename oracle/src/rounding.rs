//! The helpers of mapping/mod.rs, and the pages that `map` goes through.

use crate::answer::Answer;
use crate::archive::*;
use crate::compare::{one, two, Helper};
use crate::listed::{nothing, range, round_up};
use kernel::arch::riscv::qemu::layout::PGSIZE;
use kernel::memory::address::{Addr, VirtualAddress};
use kernel::memory::{page_round_down, page_round_up};

pub fn helpers() -> Vec<Helper> {
    vec![
        one("page_round_up", ronakvesh_page_round_up, |a| page_round_up(a as usize), round_up),
        one("page_round_down", ronakvesh_page_round_down, |a| page_round_down(a as usize), nothing),
        two("page_range", ronakvesh_page_range, mapped_pages, range),
    ]
}

/// The pages between the Rust's `va` and `last` in `map`, both rounded by the Rust.
fn mapped_pages(va: u64, size: u64) -> Answer {
    let mut first = VirtualAddress::new(va as usize);
    let mut last = first.add_addr(size as usize);
    first.pg_round_down();
    last.pg_round_up();
    Answer::Pages((first.as_usize() / PGSIZE) as u64, (last.as_usize() / PGSIZE) as u64)
}
