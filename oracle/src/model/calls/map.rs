//! `map`: 1, 2, 3, 6, 8, 9, 10, 14, 17.

use crate::model::entries::{entry, is_held};
use crate::model::judge::{self, refuse};
use crate::model::numbers::{MAXVA, PAGE, PHYSICAL_END};
use crate::model::pages::covered;
use crate::model::pool::{free_tables, word_of_page};
use crate::model::walk::{is_mapped, missing_tables};
use crate::model::Store;

/// Maps the pages of a range to the frames from `pa` rounded down on. Answer: tables taken.
pub fn map(store: &mut Store, root: u64, va: u64, pa: u64, size: u64, permissions: u64) -> Result<u64, u64> {
    judge::store(store)?;
    let root = judge::root(store, root)?;
    refuse(6, size > MAXVA)?;
    let pages = covered(va, size);
    judge::height(&pages)?;
    refuse(8, permissions > 1023)?;
    let frame = |page: u64| u128::from(pa / PAGE + (page - pages.start)) * u128::from(PAGE);
    refuse(9, pages.clone().any(|page| frame(page) >= u128::from(PHYSICAL_END)))?;
    refuse(10, pages.clone().any(|page| is_held(frame(page) as u64)))?;
    refuse(14, pages.clone().any(|page| is_mapped(store, root, page)))?;
    let missing = missing_tables(store, root, pages.clone());
    refuse(17, missing > free_tables(store))?;
    for page in pages.clone() {
        let word = word_of_page(store, root, page);
        store.words[word] = entry(frame(page) as u64, permissions);
    }
    Ok(missing as u64)
}
