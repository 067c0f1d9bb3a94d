//! What `free`, `uvm_free`, `free_shared_user_pagetable` and `proc_free_pagetable` answer and write, and that they write
//! nothing else.

mod made;
mod memory;
mod process;

use made::makes;
use memory::{refuses, Memory};
use process::{free, map, proc, shared, uvm_free, with_other, with_pages, Release, ROOT, TRAMPOLINE, TRAPFRAME};
use ronakvesh::{Refusal, VirtualAddress};

/// Holds a release to how many tables it gives back, and the store to what it was before the root was made; frames keep
/// their bytes.
#[track_caller]
fn releases(memory: &mut Memory, release: Release, size: u64, tables: u64) {
    makes(
        memory,
        |store| {
            assert_eq!(release(store, size), Ok(tables));
            Ok(())
        },
        |after| {
            let Memory { words, tmarks, fmarks, .. } = with_other();
            (after.words, after.tmarks, after.fmarks) = (words, tmarks, fmarks);
        },
    );
}

/// The pages that a release takes out beside those of its size.
fn with_own_pages(release: usize, memory: &mut Memory) {
    for va in &[TRAMPOLINE, TRAPFRAME][..release] {
        map(memory, *va, 10);
    }
}

#[test]
fn created_and_released() {
    releases(&mut with_pages(0), free, 0, 1);
    releases(&mut with_pages(0), uvm_free, 0, 1);
}

#[test]
fn created_filled_and_released() {
    for (number, release) in [uvm_free as Release, shared, proc].into_iter().enumerate() {
        let own_tables = if number == 0 { 0 } else { 2 };
        for pages in 0..=6u64 {
            let tables = 1 + own_tables + if pages == 0 { 0 } else { 2 };
            let sizes = [4096 * pages, (4096 * pages).saturating_sub(1), (4096 * pages).saturating_sub(4095)];
            for size in if pages == 0 { &sizes[..1] } else { &sizes } {
                let mut memory = with_pages(pages);
                with_own_pages(number, &mut memory);
                releases(&mut memory, release, *size, tables);
            }
        }
    }
}

#[test]
fn tables_without_pages() {
    let mut memory = with_pages(1);
    // a group of its own, and a second block
    for va in [1 << 21, 1 << 30] {
        map(&mut memory, va, 22);
        assert_eq!(memory.store().uvm_unmap(ROOT, VirtualAddress(va), 1, false), Ok(()));
    }
    releases(&mut memory.clone(), uvm_free, 1, 6);
    assert_eq!(memory.store().uvm_unmap(ROOT, VirtualAddress(0), 1, true), Ok(()));
    releases(&mut memory, free, 0, 6);
}

#[test]
fn frames_of_the_pool_and_outside() {
    let mut memory = with_pages(1);
    map(&mut memory, 4096, 22);
    // and frame 7 for page 2, whose table is 5
    memory.enter(512 * 5 + 2, 7);
    releases(&mut memory, uvm_free, 12288, 3);
}

#[test]
fn what_is_given_back_is_no_root() {
    let mut memory = with_pages(0);
    assert_eq!(free(&mut memory.store(), 0), Ok(1));
    refuses(&mut memory, Refusal::NoRoot, |store| free(store, 0));
    refuses(&mut memory, Refusal::NoRoot, |store| uvm_free(store, 0));
}

#[test]
fn what_is_given_back_is_used_again() {
    let mut memory = with_pages(6);
    assert_eq!(uvm_free(&mut memory.store(), 4096 * 6), Ok(3));
    let again = with_pages(6);
    let mut store = memory.store();
    assert_eq!(store.uvmcreate(), Ok(ROOT));
    assert_eq!(store.uvm_alloc(ROOT, 0, 4096 * 6), Ok(4096 * 6));
    assert!(memory == again);
}
