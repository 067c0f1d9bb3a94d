//! The level of a table, which its marks decide.

use super::numbers::{FREE, ROOT};
use super::store::{marked_word, table_of};
use super::Store;

/// 2 for a root; one less than the table above for a table whose mark names a word of level 2 or 1.
/// A free table has none, nor has one from which no root is met in two steps up.
pub fn level(store: &Store, table: usize) -> Option<u32> {
    level_within(store, table, 2)
}

/// The level, if a root is met in this many steps up.
fn level_within(store: &Store, table: usize, steps: u32) -> Option<u32> {
    match *store.table_marks.get(table)? {
        FREE => None,
        ROOT => Some(2),
        _ if steps == 0 => None,
        mark => {
            let above = table_of(marked_word(mark)?);
            level_within(store, above, steps - 1)?.checked_sub(1)
        }
    }
}
