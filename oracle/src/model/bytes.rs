//! Which byte lies at which address of a root, in a well-formed store.

use super::entries::{address, pool_frame, U};
use super::judge::refuse;
use super::numbers::{FRAME, MAXVA, PAGE};
use super::walk::mapped_word;
use super::Store;

/// Where the byte at an address lies among the frame bytes; 6, 11, 12 or 15 where its page may not be used.
pub fn place(store: &Store, root: usize, va: u64) -> Result<usize, u64> {
    refuse(6, va >= MAXVA)?;
    let word = mapped_word(store, root, va / PAGE).ok_or(11u64)?;
    refuse(12, store.words[word] & U == 0)?;
    let frame = pool_frame(store, address(store.words[word])).ok_or(15u64)?;
    Ok(FRAME * frame + (va % PAGE) as usize)
}

/// The places of this many bytes from an address on. The page of each is needed, and for none the page of the address; the
/// smallest number that one of them gives.
pub fn places(store: &Store, root: usize, va: u64, length: usize) -> Result<Vec<usize>, u64> {
    let needed = (0..length.max(1) as u64).map(|byte| place(store, root, va.saturating_add(byte)));
    let (places, numbers): (Vec<_>, Vec<_>) = needed.partition(|place| place.is_ok());
    match numbers.into_iter().filter_map(Result::err).min() {
        Some(number) => Err(number),
        None => Ok(places.into_iter().flatten().take(length).collect()),
    }
}
