//! Every refusal that the calls can give, each beside the nearest input that is taken. A refusal leaves the store as it was.

mod memory;

use memory::{refuses, Memory};
use ronakvesh::{PhysicalAddress, Refusal, Store, VirtualAddress};

const FRAME: u64 = 0x8000_0000;
const END: u64 = 1 << 38;

/// Maps in a root with permissions 22.
fn map(store: &mut Store, root: u64, va: u64, pa: u64, size: u64) -> Result<u64, Refusal> {
    store.map(root, VirtualAddress(va), PhysicalAddress(pa), size, 22)
}

/// Maps a page of root 0 with these permissions.
fn map_with(store: &mut Store, perm: u64) -> Result<u64, Refusal> {
    store.map(0, VirtualAddress(0), PhysicalAddress(FRAME), 4096, perm)
}

fn find(store: &Store, root: u64, va: u64) -> Result<PhysicalAddress, Refusal> {
    store.pgt_translate(root, VirtualAddress(va))
}

/// Unmaps pages of a root without freeing.
fn unmap(store: &mut Store, root: u64, va: u64, pages: u64) -> Result<(), Refusal> {
    store.uvm_unmap(root, VirtualAddress(va), pages, false)
}

/// Unmaps pages of root 0 with freeing.
fn free(store: &mut Store, va: u64, pages: u64) -> Result<(), Refusal> {
    store.uvm_unmap(0, VirtualAddress(va), pages, true)
}

fn clear(store: &mut Store, root: u64, va: u64) -> Result<(), Refusal> {
    store.uvm_clear(root, VirtualAddress(va))
}

/// Every call but set-up and the check refuses the store with this number.
fn all_refuse(memory: &mut Memory, refusal: Refusal) {
    refuses(memory, refusal, |store| store.uvmcreate());
    refuses(memory, refusal, |store| map(store, 0, 0, FRAME, 4096));
    refuses(memory, refusal, |store| unmap(store, 0, 0, 1));
    refuses(memory, refusal, |store| free(store, 0, 1));
    refuses(memory, refusal, |store| clear(store, 0, 0));
    refuses(memory, refusal, |store| store.uvm_init(0, &[]));
    refuses(memory, refusal, |store| store.uvm_alloc(0, 0, 0));
    refuses(memory, refusal, |store| store.uvm_dealloc(0, 0, 0));
    refuses(memory, refusal, |store| store.copy_in(0, VirtualAddress(0), &mut []));
    refuses(memory, refusal, |store| store.copy_out(0, VirtualAddress(0), &[]));
    refuses(memory, refusal, |store| store.copy_in_str(0, VirtualAddress(0), &mut []));
    refuses(memory, refusal, |store| store.uvm_copy(0, 0, 0));
    refuses(memory, refusal, |store| store.free(0));
    refuses(memory, refusal, |store| store.uvm_free(0, 0));
    refuses(memory, refusal, |store| store.free_shared_user_pagetable(0, 0));
    refuses(memory, refusal, |store| store.proc_free_pagetable(0, 0));
    refuses(memory, refusal, |store| find(store, 0, 0));
    refuses(memory, refusal, |store| store.as_satp(0));
}

#[test]
fn sizes() {
    for (tables, frames) in [(0, 1), (513, 1), (1, 0), (1, 4097)] {
        let mut memory = Memory::of(tables, frames);
        refuses(&mut memory, Refusal::Sizes, |store| store.set_up());
        refuses(&mut memory, Refusal::Sizes, |store| store.check());
        all_refuse(&mut memory, Refusal::Sizes);
    }
    for (tables, frames) in [(1, 1), (512, 1), (1, 4096)] {
        assert_eq!(Memory::of(tables, frames).store().set_up(), Ok(()));
    }
}

#[test]
fn lengths() {
    let mut short = Memory::of(2, 2);
    short.words.pop();
    let mut long = Memory::of(2, 2);
    long.bytes.push(0);
    for mut memory in [short, long] {
        refuses(&mut memory, Refusal::Sizes, |store| store.set_up());
        refuses(&mut memory, Refusal::Sizes, |store| store.check());
        all_refuse(&mut memory, Refusal::Sizes);
    }
}

#[test]
fn not_well_formed() {
    let mut memory = Memory::with_root(8);
    assert_eq!(memory.store().check(), Ok(true));
    memory.words[256] = 0x4000_0401;
    assert_eq!(memory.store().check(), Ok(false));
    all_refuse(&mut memory, Refusal::NotWellFormed);
}

#[test]
fn no_root() {
    let mut memory = Memory::with_root(8);
    for root in [1, 8, u64::MAX] {
        refuses(&mut memory, Refusal::NoRoot, |store| map(store, root, 0, FRAME, 4096));
        refuses(&mut memory, Refusal::NoRoot, |store| unmap(store, root, 0, 0));
        refuses(&mut memory, Refusal::NoRoot, |store| clear(store, root, 0));
        refuses(&mut memory, Refusal::NoRoot, |store| store.uvm_init(root, &[]));
        refuses(&mut memory, Refusal::NoRoot, |store| store.uvm_alloc(root, 0, 0));
        refuses(&mut memory, Refusal::NoRoot, |store| store.uvm_dealloc(root, 0, 0));
        refuses(&mut memory, Refusal::NoRoot, |store| store.copy_in(root, VirtualAddress(0), &mut []));
        refuses(&mut memory, Refusal::NoRoot, |store| store.copy_out(root, VirtualAddress(0), &[]));
        refuses(&mut memory, Refusal::NoRoot, |store| store.copy_in_str(root, VirtualAddress(0), &mut []));
        refuses(&mut memory, Refusal::NoRoot, |store| store.uvm_copy(root, 0, 0));
        refuses(&mut memory, Refusal::NoRoot, |store| store.uvm_copy(0, root, 0));
        refuses(&mut memory, Refusal::NoRoot, |store| store.free(root));
        refuses(&mut memory, Refusal::NoRoot, |store| store.uvm_free(root, 0));
        refuses(&mut memory, Refusal::NoRoot, |store| store.free_shared_user_pagetable(root, 0));
        refuses(&mut memory, Refusal::NoRoot, |store| store.proc_free_pagetable(root, 0));
        refuses(&mut memory, Refusal::NoRoot, |store| find(store, root, 0));
        refuses(&mut memory, Refusal::NoRoot, |store| store.as_satp(root));
    }
    assert_eq!(memory.store().as_satp(0), Ok(0x8000_0000_0010_0000));
    assert_eq!(unmap(&mut memory.store(), 0, 0, 0), Ok(()));
    assert_eq!(memory.store().uvm_alloc(0, 0, 0), Ok(0));
    assert_eq!(memory.store().uvm_dealloc(0, 0, 0), Ok(0));
    assert_eq!(memory.store().uvm_init(0, &[]), Ok(()));
}

#[test]
fn long_source() {
    let mut memory = Memory::with_root(8);
    for length in [4096, 4097, 8192] {
        refuses(&mut memory, Refusal::LongSource, |store| store.uvm_init(0, &vec![1; length]));
    }
    assert_eq!(memory.store().uvm_init(0, &[1; 4095]), Ok(()));
}

#[test]
fn too_high() {
    let mut memory = Memory::with_root(8);
    for (va, size) in [(END, 1), (END - 4096, 4097), (0, END + 1), (u64::MAX, 1), (u64::MAX, u64::MAX)] {
        refuses(&mut memory, Refusal::TooHigh, |store| map(store, 0, va, FRAME, size));
    }
    assert_eq!(map(&mut memory.store(), 0, END - 4096, FRAME, 4096), Ok(2));
    refuses(&mut memory, Refusal::TooHigh, |store| find(store, 0, END));
    assert_eq!(find(&memory.store(), 0, END - 1), Ok(PhysicalAddress(FRAME)));
}

#[test]
fn too_high_for_a_page() {
    let mut memory = Memory::with_root(8);
    assert_eq!(map(&mut memory.store(), 0, END - 4096, FRAME, 4096), Ok(2));
    for (va, pages) in [(END, 1), (END - 4096, 2), (0, (1 << 26) + 1), (0, u64::MAX), (u64::MAX, u64::MAX)] {
        refuses(&mut memory, Refusal::TooHigh, |store| unmap(store, 0, va, pages));
        refuses(&mut memory, Refusal::TooHigh, |store| free(store, va, pages));
    }
    for va in [END, u64::MAX] {
        refuses(&mut memory, Refusal::TooHigh, |store| clear(store, 0, va));
    }
    assert_eq!(clear(&mut memory.store(), 0, END - 1), Ok(()));
    assert_eq!(unmap(&mut memory.store(), 0, END - 4096, 1), Ok(()));
}

#[test]
fn too_large() {
    let mut memory = Memory::with_root(8);
    assert_eq!(map(&mut memory.store(), 0, END - 4096, FRAME, 4096), Ok(2));
    for large in [END + 1, END + 4096, u64::MAX - 4095, u64::MAX] {
        for other in [0, END - 4096, END, END + 1, u64::MAX] {
            refuses(&mut memory, Refusal::TooHigh, |store| store.uvm_dealloc(0, large, other));
            refuses(&mut memory, Refusal::TooHigh, |store| store.uvm_dealloc(0, other, large));
            refuses(&mut memory, Refusal::TooHigh, |store| store.uvm_alloc(0, large, other));
            refuses(&mut memory, Refusal::TooHigh, |store| store.uvm_alloc(0, other, large));
        }
    }
    assert_eq!(memory.store().uvm_alloc(0, END, END), Ok(END));
    assert_eq!(memory.store().uvm_dealloc(0, END, END), Ok(END));
    assert_eq!(memory.store().uvm_dealloc(0, END, END - 4096), Ok(END - 4096));
}

#[test]
fn not_aligned() {
    let mut memory = Memory::with_root(8);
    assert_eq!(map(&mut memory.store(), 0, 4096, FRAME, 8192), Ok(2));
    for (va, pages) in [(4097, 1), (8191, 1), (4098, 2), (4097, 0), (u64::MAX, 0)] {
        refuses(&mut memory, Refusal::NotAligned, |store| unmap(store, 0, va, pages));
        refuses(&mut memory, Refusal::NotAligned, |store| free(store, va, pages));
    }
    assert_eq!(unmap(&mut memory.store(), 0, 4096, 1), Ok(()));
}

#[test]
fn permissions() {
    let mut memory = Memory::with_root(8);
    for perm in [1024, u64::MAX] {
        refuses(&mut memory, Refusal::Permissions, |store| map_with(store, perm));
    }
    assert_eq!(map_with(&mut memory.store(), 1023), Ok(2));
}

#[test]
fn frame_too_high() {
    let mut memory = Memory::with_root(8);
    let last = (1 << 56) - 4096;
    refuses(&mut memory, Refusal::FrameTooHigh, |store| map(store, 0, 0, 1 << 56, 1));
    refuses(&mut memory, Refusal::FrameTooHigh, |store| map(store, 0, 0, last, 4097));
    assert_eq!(map(&mut memory.store(), 0, 0, last, 4096), Ok(2));
}

#[test]
fn held_window() {
    let mut memory = Memory::with_root(8);
    let (first, end) = (0x1_0000_0000, 0x1_2000_0000);
    for (pa, size) in [(first, 1), (end - 4096, 1), (first - 4096, 4097)] {
        refuses(&mut memory, Refusal::HeldWindow, |store| map(store, 0, 0, pa, size));
    }
    assert_eq!(map(&mut memory.store(), 0, 0, first - 4096, 4096), Ok(2));
    assert_eq!(map(&mut memory.store(), 0, 4096, end, 4096), Ok(0));
}

#[test]
fn a_pool_frame_and_no_freeing() {
    let mut memory = Memory::with_root(8);
    assert_eq!(map(&mut memory.store(), 0, 0, FRAME, 4096), Ok(2));
    memory.enter(1024 + 1, 7);
    for (va, pages) in [(4096, 1), (0, 2)] {
        refuses(&mut memory, Refusal::HeldWindow, |store| unmap(store, 0, va, pages));
    }
    assert_eq!(unmap(&mut memory.store(), 0, 0, 1), Ok(()));
    assert_eq!(free(&mut memory.store(), 4096, 1), Ok(()));
}

#[test]
fn not_mapped() {
    let mut memory = Memory::with_root(8);
    refuses(&mut memory, Refusal::NotMapped, |store| find(store, 0, 4096));
    assert_eq!(map(&mut memory.store(), 0, 4096, FRAME, 4096), Ok(2));
    assert_eq!(find(&memory.store(), 0, 4096), Ok(PhysicalAddress(FRAME)));
    refuses(&mut memory, Refusal::NotMapped, |store| find(store, 0, 8192));
}

#[test]
fn not_mapped_to_be_unmapped() {
    let mut memory = Memory::with_root(8);
    assert_eq!(map(&mut memory.store(), 0, 4096, FRAME, 8192), Ok(2));
    for (va, pages) in [(0, 1), (0, 2), (4096, 3), (12288, 1), (1 << 21, 1), (1 << 30, 1), (0, 1 << 26)] {
        refuses(&mut memory, Refusal::NotMapped, |store| unmap(store, 0, va, pages));
        refuses(&mut memory, Refusal::NotMapped, |store| free(store, va, pages));
    }
    assert_eq!(unmap(&mut memory.store(), 0, 4096, 2), Ok(()));
    refuses(&mut memory, Refusal::NotMapped, |store| unmap(store, 0, 4096, 2));
}

#[test]
fn not_mapped_to_be_given_up() {
    let mut memory = Memory::with_root(8);
    assert_eq!(map(&mut memory.store(), 0, 4096, FRAME, 8192), Ok(2));
    for (old, new) in [(12288, 0), (12289, 4096), (12289, 8192), (1 << 21, 12288), ((1 << 30) + 1, 1 << 30), (END, 0)] {
        refuses(&mut memory, Refusal::NotMapped, |store| store.uvm_dealloc(0, old, new));
    }
    assert_eq!(memory.store().uvm_dealloc(0, 12288, 1), Ok(1));
    refuses(&mut memory, Refusal::NotMapped, |store| store.uvm_dealloc(0, 12288, 1));
}

#[test]
fn no_table_to_clear_in() {
    let mut memory = Memory::with_root(8);
    refuses(&mut memory, Refusal::NotMapped, |store| clear(store, 0, 0));
    assert_eq!(map(&mut memory.store(), 0, 4096, FRAME, 4096), Ok(2));
    for va in [1 << 21, 1 << 30] {
        refuses(&mut memory, Refusal::NotMapped, |store| clear(store, 0, va));
    }
    assert_eq!(clear(&mut memory.store(), 0, (1 << 21) - 1), Ok(()));
}

#[test]
fn not_user() {
    let mut memory = Memory::with_root(8);
    assert_eq!(map_with(&mut memory.store(), 1023 - 16), Ok(2));
    refuses(&mut memory, Refusal::NotUser, |store| find(store, 0, 0));
}

#[test]
fn only_valid() {
    for (perm, refused) in [(0, true), (1, true), (2, false), (16, false), (512, false)] {
        let mut memory = Memory::with_root(8);
        assert_eq!(map_with(&mut memory.store(), perm), Ok(2));
        assert_eq!(map(&mut memory.store(), 0, 4096, FRAME, 4096), Ok(0));
        if refused {
            refuses(&mut memory, Refusal::OnlyValid, |store| unmap(store, 0, 0, 2));
            refuses(&mut memory, Refusal::OnlyValid, |store| free(store, 0, 2));
            refuses(&mut memory, Refusal::OnlyValid, |store| store.uvm_dealloc(0, 4097, 0));
        } else {
            assert_eq!(unmap(&mut memory.store(), 0, 0, 2), Ok(()));
        }
    }
}

#[test]
fn only_valid_to_be_given_up() {
    for (perm, refused) in [(0, true), (1, true), (2, false), (16, false), (512, false)] {
        let mut memory = Memory::with_root(8);
        assert_eq!(map_with(&mut memory.store(), perm), Ok(2));
        if refused {
            refuses(&mut memory, Refusal::OnlyValid, |store| store.uvm_dealloc(0, 4096, 0));
            assert_eq!(memory.store().uvm_dealloc(0, 4096, 1), Ok(1));
        } else {
            assert_eq!(memory.store().uvm_dealloc(0, 4096, 0), Ok(0));
        }
    }
}

#[test]
fn mapped_already() {
    let mut memory = Memory::with_root(8);
    assert_eq!(map(&mut memory.store(), 0, 4096, FRAME, 4096), Ok(2));
    for (va, size) in [(4096, 1), (4095, 2), (0, 1 << 31)] {
        refuses(&mut memory, Refusal::MappedAlready, |store| map(store, 0, va, 0, size));
    }
    assert_eq!(map(&mut memory.store(), 0, 0, FRAME, 4096), Ok(0));
}

#[test]
fn mapped_already_for_a_fresh_frame() {
    let mut memory = Memory::with_root(8);
    assert_eq!(map(&mut memory.store(), 0, 4096, FRAME, 4096), Ok(2));
    for (old, new) in [(0, 4097), (4096, 4097), (1, 8192), (0, END)] {
        refuses(&mut memory, Refusal::MappedAlready, |store| store.uvm_alloc(0, old, new));
    }
    assert_eq!(memory.store().uvm_alloc(0, 4097, 8192), Ok(8192));
    assert_eq!(memory.store().uvm_init(0, &[]), Ok(()));
    refuses(&mut memory, Refusal::MappedAlready, |store| store.uvm_init(0, &[]));
    refuses(&mut memory, Refusal::MappedAlready, |store| store.uvm_alloc(0, 0, 1));
}

#[test]
fn too_few_frames() {
    let mut memory = Memory::with_root(8);
    for (old, new) in [(0, 9 * 4096), (0, 8 * 4096 + 1), (1 << 21, 1 << 22), (0, END)] {
        refuses(&mut memory, Refusal::TooFewFrames, |store| store.uvm_alloc(0, old, new));
    }
    assert_eq!(memory.store().uvm_alloc(0, 4096, 9 * 4096), Ok(9 * 4096));
    refuses(&mut memory, Refusal::TooFewFrames, |store| store.uvm_alloc(0, 9 * 4096, 9 * 4096 + 1));
    refuses(&mut memory, Refusal::TooFewFrames, |store| store.uvm_init(0, &[]));
    assert_eq!(memory.store().uvm_dealloc(0, 9 * 4096, 8 * 4096), Ok(8 * 4096));
    assert_eq!(memory.store().uvm_init(0, &[]), Ok(()));
}

#[test]
fn too_few_tables_for_fresh_frames() {
    for tables in [1, 2] {
        let mut memory = Memory::with_root(tables);
        refuses(&mut memory, Refusal::TooFewTables, |store| store.uvm_init(0, &[]));
        refuses(&mut memory, Refusal::TooFewTables, |store| store.uvm_alloc(0, 0, 1));
    }
    let mut memory = Memory::with_root(4);
    refuses(&mut memory, Refusal::TooFewTables, |store| store.uvm_alloc(0, (1 << 30) - 4096, (1 << 30) + 1));
    assert_eq!(memory.store().uvm_alloc(0, (1 << 21) - 4096, (1 << 21) + 1), Ok((1 << 21) + 1));
    refuses(&mut memory, Refusal::TooFewTables, |store| store.uvm_alloc(0, 1 << 22, (1 << 22) + 1));
}

#[test]
fn too_few_tables() {
    let mut memory = Memory::with_root(2);
    refuses(&mut memory, Refusal::TooFewTables, |store| map(store, 0, 4096, FRAME, 4096));
    assert_eq!(memory.store().uvmcreate(), Ok(1));
    refuses(&mut memory, Refusal::TooFewTables, |store| store.uvmcreate());
    assert_eq!(map(&mut Memory::with_root(3).store(), 0, 4096, FRAME, 4096), Ok(2));
}

#[test]
fn the_smallest_is_given() {
    let mut memory = Memory::with_root(2);
    let far = PhysicalAddress(u64::MAX);
    refuses(&mut memory, Refusal::NoRoot, |store| store.map(1, VirtualAddress(END), far, 1, 1024));
    refuses(&mut memory, Refusal::TooHigh, |store| store.map(0, VirtualAddress(END), far, 1, 1024));
    refuses(&mut memory, Refusal::Permissions, |store| store.map(0, VirtualAddress(0), far, 1, 1024));
    refuses(&mut memory, Refusal::FrameTooHigh, |store| store.map(0, VirtualAddress(0), far, 1, 1023));
    refuses(&mut memory, Refusal::TooFewTables, |store| map_with(store, 1023));
}

#[test]
fn the_smallest_is_given_for_pages() {
    let mut memory = Memory::with_root(8);
    assert_eq!(map_with(&mut memory.store(), 0), Ok(2));
    memory.enter(1024 + 1, 0);
    refuses(&mut memory, Refusal::NoRoot, |store| unmap(store, 1, END + 1, 3));
    refuses(&mut memory, Refusal::TooHigh, |store| unmap(store, 0, END + 1, 3));
    refuses(&mut memory, Refusal::NotAligned, |store| unmap(store, 0, 1, 3));
    refuses(&mut memory, Refusal::HeldWindow, |store| unmap(store, 0, 0, 3));
    refuses(&mut memory, Refusal::NotMapped, |store| free(store, 0, 3));
    refuses(&mut memory, Refusal::OnlyValid, |store| free(store, 0, 2));
    refuses(&mut memory, Refusal::NoRoot, |store| clear(store, 1, END));
    refuses(&mut memory, Refusal::TooHigh, |store| clear(store, 0, END));
    refuses(&mut memory, Refusal::NoRoot, |store| store.uvm_dealloc(1, END + 1, 0));
    refuses(&mut memory, Refusal::TooHigh, |store| store.uvm_dealloc(0, END + 1, 0));
    refuses(&mut memory, Refusal::NotMapped, |store| store.uvm_dealloc(0, 8193, 0));
    refuses(&mut memory, Refusal::OnlyValid, |store| store.uvm_dealloc(0, 8192, 0));
    assert_eq!(free(&mut memory.store(), 4096, 1), Ok(()));
}

#[test]
fn the_smallest_is_given_for_fresh_frames() {
    let mut memory = Memory::with_root(3);
    let long = [1; 4096];
    refuses(&mut memory, Refusal::NoRoot, |store| store.uvm_init(1, &long));
    refuses(&mut memory, Refusal::NoRoot, |store| store.uvm_alloc(1, END + 1, 0));
    refuses(&mut memory, Refusal::TooHigh, |store| store.uvm_alloc(0, 0, END + 1));
    refuses(&mut memory, Refusal::TooFewFrames, |store| store.uvm_alloc(0, 0, END));
    assert_eq!(memory.store().uvm_alloc(0, 0, 8 * 4096), Ok(8 * 4096));
    refuses(&mut memory, Refusal::LongSource, |store| store.uvm_init(0, &long));
    refuses(&mut memory, Refusal::MappedAlready, |store| store.uvm_init(0, &[]));
    refuses(&mut memory, Refusal::MappedAlready, |store| store.uvm_alloc(0, 0, END));
    refuses(&mut memory, Refusal::TooFewFrames, |store| store.uvm_alloc(0, 1 << 21, 1 << 22));
    assert_eq!(memory.store().uvm_dealloc(0, 8 * 4096, 7 * 4096), Ok(7 * 4096));
    refuses(&mut memory, Refusal::TooFewTables, |store| store.uvm_alloc(0, 1 << 21, (1 << 21) + 1));
}
