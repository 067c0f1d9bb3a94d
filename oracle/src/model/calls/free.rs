//! `free`: 1, 2, 3, 18.

use crate::model::entries::V;
use crate::model::judge::{self, refuse};
use crate::model::pool::give_back_table;
use crate::model::store::words_of;
use crate::model::walk::table_below;
use crate::model::Store;

/// Gives a root and all tables below it back. Answer: how many they are.
pub fn free(store: &mut Store, root: u64) -> Result<u64, u64> {
    judge::store(store)?;
    let root = judge::root(store, root)?;
    refuse(18, has_page(store, root, 2))?;
    Ok(free_below(store, root, 2))
}

/// Whether a page is mapped below a table of this level.
fn has_page(store: &Store, table: usize, level: u32) -> bool {
    words_of(table).any(|word| match level {
        0 => store.words[word] & V != 0,
        _ => table_below(store, word).is_some_and(|below| has_page(store, below, level - 1)),
    })
}

/// Gives each table below a table back, then the table.
fn free_below(store: &mut Store, table: usize, level: u32) -> u64 {
    let mut given_back = 1;
    if level > 0 {
        let below: Vec<usize> = words_of(table).filter_map(|word| table_below(store, word)).collect();
        given_back += below.into_iter().map(|table| free_below(store, table, level - 1)).sum::<u64>();
    }
    give_back_table(store, table);
    given_back
}
