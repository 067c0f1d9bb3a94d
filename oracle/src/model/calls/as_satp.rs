//! `as_satp`: 1, 2, 3.

use crate::model::judge;
use crate::model::Store;

/// The number of the register satp for a root.
pub fn as_satp(store: &Store, root: u64) -> Result<u64, u64> {
    judge::store(store)?;
    let root = judge::root(store, root)?;
    Ok(0x8000_0000_0010_0000 + root as u64)
}
