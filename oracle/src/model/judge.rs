//! The refusals that calls have in common, each judged before the first write.

use super::numbers::{PAGES, ROOT};
use super::{well_formed, Store};
use std::cell::Cell;
use std::ops::Range;

thread_local! {
    /// Whether the store of the calls is well formed, where that was judged before.
    static JUDGED: Cell<Option<bool>> = const { Cell::new(None) };
}

/// Makes calls on a store of which W1 to W5 were judged before, so that they need not be judged again for each call.
pub fn judged<R>(well_formed: bool, calls: impl FnOnce() -> R) -> R {
    JUDGED.set(Some(well_formed));
    let answer = calls();
    JUDGED.set(None);
    answer
}

/// Refuses with this number where its reason applies.
pub fn refuse(number: u64, applies: bool) -> Result<(), u64> {
    if applies {
        Err(number)
    } else {
        Ok(())
    }
}

/// 1 for wrong sizes, 2 for a store that is not well formed.
pub fn store(store: &Store) -> Result<(), u64> {
    refuse(1, !store.lengths().are_right())?;
    refuse(2, !JUDGED.get().unwrap_or_else(|| well_formed(store)))
}

/// 3 for a table that is not a root.
pub fn root(store: &Store, root: u64) -> Result<usize, u64> {
    let table = usize::try_from(root).map_err(|_| 3u64)?;
    refuse(3, store.table_marks.get(table) != Some(&ROOT))?;
    Ok(table)
}

/// 6 for a page at or above 2^38; no pages are never too high.
pub fn height(pages: &Range<u64>) -> Result<(), u64> {
    refuse(6, !pages.is_empty() && pages.end > PAGES)
}
