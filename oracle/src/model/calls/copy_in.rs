//! `copy_in`: 1, 2, 3, 6, 11, 12, 15.

use crate::model::bytes::places;
use crate::model::judge;
use crate::model::Store;

/// Copies the bytes from an address on to the buffer. Answer: 0.
pub fn copy_in(store: &Store, root: u64, va: u64, dst: &mut [u8]) -> Result<u64, u64> {
    judge::store(store)?;
    let root = judge::root(store, root)?;
    let places = places(store, root, va, dst.len())?;
    for (byte, place) in dst.iter_mut().zip(places) {
        *byte = store.bytes[place];
    }
    Ok(0)
}
