//! `free_shared_user_pagetable`: 1, 2, 3, 10, 11, 13; 6, 11, 13; 18.

use crate::model::calls::uvm_free::{in_parts, unmap_and_free};
use crate::model::calls::uvm_unmap::uvm_unmap;
use crate::model::numbers::TRAMPOLINE;
use crate::model::Store;

/// Unmaps TRAMPOLINE without freeing, then does as `uvm_free`. Answer: that of `free`.
pub fn free_shared_user_pagetable(store: &mut Store, root: u64, size: u64) -> Result<u64, u64> {
    in_parts(store, |store| {
        uvm_unmap(store, root, TRAMPOLINE, 1, false)?;
        unmap_and_free(store, root, size)
    })
}
