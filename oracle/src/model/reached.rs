//! What is reached from the roots, which in a well-formed store adds up with what is free.

use super::entries::{address, pool_frame};
use super::numbers::{FREE, ROOT};
use super::store::words_of;
use super::walk::table_below;
use super::Store;

/// Whether the free tables and the tables reached from the roots add up to T, and the frames likewise to F.
pub fn adds_up(store: &Store) -> bool {
    let mut reached = Reached { tables: 0, frames: 0 };
    for root in (0..store.tables()).filter(|&table| store.table_marks[table] == ROOT) {
        reached.count(store, root, 2);
    }
    let free = |marks: &[u32]| marks.iter().filter(|&&mark| mark == FREE).count();
    reached.tables + free(&store.table_marks) == store.tables()
        && reached.frames + free(&store.frame_marks) == store.frames()
}

/// How many tables are reached from a root, itself included.
pub fn tables_of(store: &Store, root: usize) -> usize {
    let mut reached = Reached { tables: 0, frames: 0 };
    reached.count(store, root, 2);
    reached.tables
}

struct Reached {
    tables: usize,
    frames: usize,
}

impl Reached {
    /// Counts a table, and what is reached from its words.
    fn count(&mut self, store: &Store, table: usize, level: u32) {
        self.tables += 1;
        for word in words_of(table) {
            if level == 0 {
                self.frames += usize::from(pool_frame(store, address(store.words[word])).is_some());
            } else if let Some(below) = table_below(store, word) {
                self.count(store, below, level - 1);
            }
        }
    }
}
