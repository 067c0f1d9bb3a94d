//! `set_up`: 1.

use crate::model::judge::refuse;
use crate::model::Store;

/// Writes zeros to all four slices.
pub fn set_up(store: &mut Store) -> Result<u64, u64> {
    refuse(1, !store.lengths().are_right())?;
    *store = Store::zeros(store.tables(), store.frames());
    Ok(0)
}
