// `alloc::boxed::Box`, as far as the Rust uses it: a zeroed page of the window is taken, and its address kept.

use crate::memory::{PageTable, RawPage};
use crate::window::{FRAMES_AT, PAGE, TABLES_AT};
use std::any::type_name;
use std::cell::RefCell;
use std::ptr::write_bytes;

/// A page that was taken. It is never given back, as in the Rust.
pub struct Box<T>(*mut T);

/// A page of zeros that is not yet a `T`.
pub struct Zeroed<T>(*mut T);

/// The addresses of the free pages, the lowest at the end of its list.
struct Free {
    tables: Vec<usize>,
    frames: Vec<usize>,
}

thread_local! {
    static FREE: RefCell<Free> = const { RefCell::new(Free { tables: Vec::new(), frames: Vec::new() }) };
}

/// Has exactly the tables and frames with mark 0 be free.
pub fn set_free(table_marks: &[u32], frame_marks: &[u32]) {
    let (tables, frames) = (unmarked(table_marks, TABLES_AT), unmarked(frame_marks, FRAMES_AT));
    FREE.set(Free { tables, frames });
}

/// How many tables are free.
pub fn free_tables() -> usize {
    FREE.with_borrow(|free| free.tables.len())
}

/// How many frames are free.
pub fn free_frames() -> usize {
    FREE.with_borrow(|free| free.frames.len())
}

/// The addresses of the pages with mark 0, downward; page 0 lies at `first`.
fn unmarked(marks: &[u32], first: usize) -> Vec<usize> {
    let free = (0..marks.len()).rev().filter(|&page| marks[page] == 0);
    free.map(|page| first + PAGE * page).collect()
}

/// Takes the lowest free page, of tables or of frames as the name of its type says. Without one it panics.
fn take(name: &str) -> usize {
    let page = FREE.with_borrow_mut(|free| match name {
        _ if name == type_name::<PageTable>() => free.tables.pop(),
        _ if name == type_name::<RawPage>() => free.frames.pop(),
        _ => None,
    });
    page.expect("a page is free")
}

impl<T> Box<T> {
    /// Takes a page of zeros. The one place that decides where pages lie.
    pub fn new_zeroed() -> Zeroed<T> {
        assert!(size_of::<T>() == PAGE, "a page is taken");
        let page = take(type_name::<T>()) as *mut T;
        // SAFETY: free pages lie in the window, which is open, and a `T` is as long as one.
        unsafe { write_bytes(page, 0, 1) };
        Zeroed(page)
    }

    /// The address of the page.
    pub fn into_raw(page: Self) -> *mut T {
        page.0
    }
}

impl<T> Zeroed<T> {
    /// The page as a `T`.
    ///
    /// # Safety
    /// Zeros must be a `T`.
    pub unsafe fn assume_init(self) -> Box<T> {
        Box(self.0)
    }
}
