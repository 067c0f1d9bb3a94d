//! Free tables and frames: counted, taken lowest first, and given back.

use super::entries::pointer;
use super::numbers::FREE;
use super::pages::indices;
use super::store::{mark_of, word_at};
use super::walk::table_below;
use super::Store;

pub fn free_tables(store: &Store) -> usize {
    store.table_marks.iter().filter(|&&mark| mark == FREE).count()
}

pub fn free_frames(store: &Store) -> usize {
    store.frame_marks.iter().filter(|&&mark| mark == FREE).count()
}

/// Takes the lowest free table, zeroed, and marks it.
pub fn take_table(store: &mut Store, mark: u32) -> usize {
    let table = lowest(&store.table_marks);
    store.table_marks[table] = mark;
    store.table_mut(table).fill(0);
    table
}

/// Takes the lowest free frame, zeroed, and marks it.
pub fn take_frame(store: &mut Store, mark: u32) -> usize {
    let frame = lowest(&store.frame_marks);
    store.frame_marks[frame] = mark;
    store.frame_mut(frame).fill(0);
    frame
}

/// Gives a table back, zeroed.
pub fn give_back_table(store: &mut Store, table: usize) {
    store.table_marks[table] = FREE;
    store.table_mut(table).fill(0);
}

/// Gives a frame back, which keeps its bytes.
pub fn give_back_frame(store: &mut Store, frame: usize) {
    store.frame_marks[frame] = FREE;
}

/// The number of a page's level-0 word, after its missing tables are taken, level 1 before level 0.
pub fn word_of_page(store: &mut Store, root: usize, page: u64) -> usize {
    let [first, second, third] = indices(page);
    let level_1 = table_at(store, word_at(root, first));
    let level_0 = table_at(store, word_at(level_1, second));
    word_at(level_0, third)
}

/// The table that a word points to, taken where there is none.
fn table_at(store: &mut Store, word: usize) -> usize {
    table_below(store, word).unwrap_or_else(|| {
        let table = take_table(store, mark_of(word));
        store.words[word] = pointer(table);
        table
    })
}

/// The lowest number that is free; the call has made sure that there is one.
fn lowest(marks: &[u32]) -> usize {
    marks.iter().position(|&mark| mark == FREE).expect("one is free")
}
