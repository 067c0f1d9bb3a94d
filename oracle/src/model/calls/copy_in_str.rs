//! `copy_in_str`: 1, 2, 3; 6, 11, 12, 15 for the first page on the way that cannot be read.

use crate::model::bytes::{place, places};
use crate::model::judge;
use crate::model::Store;

/// Copies the bytes from an address on, up to the first zero or the end of the buffer, to the buffer. Answer: how many.
pub fn copy_in_str(store: &Store, root: u64, va: u64, dst: &mut [u8]) -> Result<u64, u64> {
    judge::store(store)?;
    let root = judge::root(store, root)?;
    places(store, root, va, 0)?;
    let mut string = Vec::new();
    while string.len() < dst.len() {
        let byte = store.bytes[place(store, root, va.saturating_add(string.len() as u64))?];
        if byte == 0 {
            break;
        }
        string.push(byte);
    }
    dst[..string.len()].copy_from_slice(&string);
    Ok(string.len() as u64)
}
