//! From a page to its level-0 word, in a well-formed store.

use super::entries::{address, V};
use super::numbers::{ENTRIES, PAGE, TABLES_AT};
use super::pages::{block, group};
use super::store::word_at;
use super::Store;
use std::ops::Range;

/// The table that a word of level 2 or 1 points to.
pub fn table_below(store: &Store, word: usize) -> Option<usize> {
    match store.words[word] {
        0 => None,
        pointer => Some(((address(pointer) - TABLES_AT) / PAGE) as usize),
    }
}

/// The level-1 table of a group, where it exists.
fn level_1_table(store: &Store, root: usize, group: u64) -> Option<usize> {
    table_below(store, word_at(root, group as usize))
}

/// The level-0 table of a block, where it exists.
fn level_0_table(store: &Store, root: usize, block: u64) -> Option<usize> {
    let level_1 = level_1_table(store, root, block / 512)?;
    table_below(store, word_at(level_1, (block % 512) as usize))
}

/// The number of a page's level-0 word, where its level-0 table exists.
pub fn level_0_word(store: &Store, root: usize, page: u64) -> Option<usize> {
    let level_0 = level_0_table(store, root, block(page))?;
    Some(word_at(level_0, (page % 512) as usize))
}

/// The number of a mapped page's level-0 word: it exists and has V.
pub fn mapped_word(store: &Store, root: usize, page: u64) -> Option<usize> {
    level_0_word(store, root, page).filter(|&word| store.words[word] & V != 0)
}

/// Whether a page is mapped.
pub fn is_mapped(store: &Store, root: usize, page: u64) -> bool {
    mapped_word(store, root, page).is_some()
}

/// How many tables these pages miss: one for each group, and one for each block, that has none.
pub fn missing_tables(store: &Store, root: usize, pages: Range<u64>) -> usize {
    if pages.is_empty() {
        return 0;
    }
    let last = pages.end - 1;
    let groups = (group(pages.start)..=group(last)).filter(|&group| level_1_table(store, root, group).is_none());
    let blocks = (block(pages.start)..=block(last)).filter(|&block| level_0_table(store, root, block).is_none());
    groups.count() + blocks.count()
}

/// The mapped pages of a root, upward.
pub fn mapped_pages(store: &Store, root: usize) -> Vec<u64> {
    let mut pages = Vec::new();
    for (group, level_1) in tables_below(store, root) {
        for (block, level_0) in tables_below(store, level_1) {
            let mapped = (0..ENTRIES).filter(|&entry| store.words[word_at(level_0, entry)] & V != 0);
            pages.extend(mapped.map(|entry| ((group * ENTRIES + block) * ENTRIES + entry) as u64));
        }
    }
    pages
}

/// The tables that a table of level 2 or 1 points to, each with its entry.
fn tables_below(store: &Store, table: usize) -> impl Iterator<Item = (usize, usize)> + '_ {
    (0..ENTRIES).filter_map(move |entry| Some((entry, table_below(store, word_at(table, entry))?)))
}
