//! `copy_out`: 1, 2, 3, 6, 11, 12, 15.

use crate::model::bytes::places;
use crate::model::judge;
use crate::model::Store;

/// Copies the source to the bytes from an address on. Answer: 0.
pub fn copy_out(store: &mut Store, root: u64, va: u64, src: &[u8]) -> Result<u64, u64> {
    judge::store(store)?;
    let root = judge::root(store, root)?;
    for (byte, place) in src.iter().zip(places(store, root, va, src.len())?) {
        store.bytes[place] = *byte;
    }
    Ok(0)
}
