//! The bytes that are lent beside the store: byte i is i modulo 251, and 1. A call is lent the first of them.

use crate::archive::Numbers;

/// How many there are.
const LENGTH: usize = 8192;

pub fn bytes() -> Vec<u8> {
    (0..LENGTH).map(|place| (place % 251 + 1) as u8).collect()
}

/// How many a call is lent: the last of its numbers.
pub fn length(numbers: Numbers, count: usize) -> usize {
    numbers[count - 1] as usize
}
