//! `uvm_dealloc`: 1, 2, 3, 6, 11, 13.

use crate::model::calls::uvm_unmap::leave;
use crate::model::judge::{self, refuse};
use crate::model::numbers::{MAXVA, PAGE};
use crate::model::Store;

/// Unmaps the pages from the new size, rounded up, to the old one, with freeing. Answer: the new size, or the old if that
/// is no more.
pub fn uvm_dealloc(store: &mut Store, root: u64, old: u64, new: u64) -> Result<u64, u64> {
    judge::store(store)?;
    let root = judge::root(store, root)?;
    refuse(6, old > MAXVA || new > MAXVA)?;
    if new >= old {
        return Ok(old);
    }
    leave(store, root, new.div_ceil(PAGE)..old.div_ceil(PAGE), true)?;
    Ok(new)
}
