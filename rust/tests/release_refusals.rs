//! Every refusal of `free`, `uvm_free`, `free_shared_user_pagetable` and `proc_free_pagetable`, and that the first part that
//! refuses gives the number. A refusal leaves the store as it was.

mod memory;
mod process;

use memory::{refuses, Memory};
use process::{free, map, proc, shared, uvm_free, with_pages, Release, END, ROOT, TRAMPOLINE, TRAPFRAME};
use ronakvesh::{Refusal, VirtualAddress};

/// Holds a release to a refusal for each of these sizes.
#[track_caller]
fn none_releases(memory: &mut Memory, refusal: Refusal, release: Release, sizes: &[u64]) {
    for &size in sizes {
        refuses(memory, refusal, |store| release(store, size));
    }
}

/// Maps a page of the last block to pool frame 7; the block has table 7 where page 0 is mapped.
fn map_pool(memory: &mut Memory, va: u64) {
    map(memory, va, 22);
    memory.enter(512 * 7 + (va / 4096 % 512) as usize, 7);
}

fn unmap(memory: &mut Memory, va: u64, freeing: bool) {
    assert_eq!(memory.store().uvm_unmap(ROOT, VirtualAddress(va), 1, freeing), Ok(()));
}

#[test]
fn page_left() {
    for va in [0, 4096, 1 << 21, 1 << 30, TRAPFRAME, TRAMPOLINE] {
        // a flag beside V, none, and one that is no right
        for permissions in [10, 0, 0x200] {
            let mut memory = with_pages(0);
            map(&mut memory, va, permissions);
            refuses(&mut memory, Refusal::PageLeft, |store| free(store, 0));
            refuses(&mut memory, Refusal::PageLeft, |store| uvm_free(store, 0));
        }
    }
    let mut memory = with_pages(3);
    none_releases(&mut memory, Refusal::PageLeft, uvm_free, &[0, 1, 4096, 4097, 8192]);
    assert_eq!(uvm_free(&mut memory.store(), 8193), Ok(3));
}

#[test]
fn sizes_of_uvm_free() {
    let mut memory = with_pages(2);
    none_releases(&mut memory, Refusal::TooHigh, uvm_free, &[END + 1, END + 4096, u64::MAX]);
    none_releases(&mut memory, Refusal::NotMapped, uvm_free, &[8193, TRAPFRAME, TRAMPOLINE, END - 1, END]);
    assert_eq!(uvm_free(&mut memory.store(), 8192), Ok(3));
}

#[test]
fn pages_of_uvm_free() {
    let mut memory = with_pages(1);
    map(&mut memory, 4096, 0);
    none_releases(&mut memory, Refusal::OnlyValid, uvm_free, &[4097, 8192]);
    none_releases(&mut memory, Refusal::NotMapped, uvm_free, &[8193]);
    none_releases(&mut memory, Refusal::PageLeft, uvm_free, &[0, 1, 4096]);
}

#[test]
fn trampoline() {
    for release in [shared as Release, proc] {
        let mut memory = with_pages(1);
        map(&mut memory, TRAPFRAME, 6);
        none_releases(&mut memory, Refusal::NotMapped, release, &[0, 4096, END, END + 1, u64::MAX]);
        map(&mut memory, TRAMPOLINE, 1);
        none_releases(&mut memory, Refusal::OnlyValid, release, &[0, 4096, 8192, END, END + 1, u64::MAX]);
        let mut memory = with_pages(1);
        map_pool(&mut memory, TRAMPOLINE);
        none_releases(&mut memory, Refusal::HeldWindow, release, &[0, 4096, 8192, END, END + 1, u64::MAX]);
    }
}

#[test]
fn trapframe() {
    let mut memory = with_pages(1);
    map(&mut memory, TRAMPOLINE, 10);
    none_releases(&mut memory, Refusal::NotMapped, proc, &[0, 4096, END + 1]);
    map_pool(&mut memory, TRAPFRAME);
    none_releases(&mut memory, Refusal::HeldWindow, proc, &[0, 4096, 8192, END + 1]);
    unmap(&mut memory, TRAPFRAME, true);
    map(&mut memory, TRAPFRAME, 0);
    none_releases(&mut memory, Refusal::OnlyValid, proc, &[0, 4096, 8192, END + 1]);
}

#[test]
fn the_first_part_that_refuses() {
    let mut memory = with_pages(2);
    // 13 for TRAMPOLINE, 10 for TRAPFRAME, 6 and 11 for the size
    map(&mut memory, TRAMPOLINE, 0);
    map_pool(&mut memory, TRAPFRAME);
    none_releases(&mut memory, Refusal::OnlyValid, proc, &[8192, 8193, END + 1]);
    // TRAMPOLINE goes; 13 for TRAPFRAME, 6 and 11 for the size
    let mut memory = with_pages(2);
    map(&mut memory, TRAMPOLINE, 10);
    map(&mut memory, TRAPFRAME, 0);
    none_releases(&mut memory, Refusal::OnlyValid, proc, &[8192, 8193, END + 1]);
    // both go, or TRAPFRAME stays
    let mut memory = with_pages(2);
    map(&mut memory, TRAMPOLINE, 10);
    map(&mut memory, TRAPFRAME, 6);
    for release in [shared as Release, proc] {
        none_releases(&mut memory, Refusal::TooHigh, release, &[END + 1, u64::MAX]);
        none_releases(&mut memory, Refusal::NotMapped, release, &[8193, END]);
        none_releases(&mut memory, Refusal::PageLeft, release, &[0, 4096]);
    }
    none_releases(&mut memory, Refusal::PageLeft, shared, &[8192]);
    assert_eq!(proc(&mut memory.store(), 8192), Ok(5));
}

/// A page that a part has taken out is not mapped for the next one.
#[test]
fn a_size_that_reaches_what_has_left() {
    let mut memory = with_pages(0);
    map(&mut memory, TRAMPOLINE, 10);
    map(&mut memory, TRAPFRAME, 6);
    for size in [TRAPFRAME + 1, TRAMPOLINE, TRAMPOLINE + 1, END] {
        refuses(&mut memory, Refusal::NotMapped, |store| proc(store, size));
        refuses(&mut memory, Refusal::NotMapped, |store| shared(store, size));
    }
    refuses(&mut memory, Refusal::PageLeft, |store| shared(store, 0));
    assert_eq!(proc(&mut memory.store(), 0), Ok(3));
}

#[test]
fn other_roots_do_not_count() {
    let mut memory = with_pages(0);
    assert_eq!(free(&mut memory.store(), 0), Ok(1));
    refuses(&mut memory, Refusal::PageLeft, |store| store.free(0));
    refuses(&mut memory, Refusal::NoRoot, |store| free(store, 0));
    assert_eq!(memory.store().uvm_free(0, 8192), Ok(3));
    assert!(memory.tmarks.iter().chain(&memory.fmarks).all(|mark| *mark == 0));
}
