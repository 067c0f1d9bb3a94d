//! The pages of a range, and where a page stands in the tree.

use super::numbers::PAGE;
use std::ops::Range;

/// The pages that a range covers, in whole numbers.
pub fn covered(va: u64, size: u64) -> Range<u64> {
    let end = (u128::from(va) + u128::from(size)).div_ceil(u128::from(PAGE));
    va / PAGE..end as u64
}

/// The block of a page: the 512 pages of one level-0 table.
pub fn block(page: u64) -> u64 {
    page / 512
}

/// The group of a page: the 262,144 pages of one level-1 table.
pub fn group(page: u64) -> u64 {
    block(page) / 512
}

/// A page's entry in the table of each level, from level 2 down.
pub fn indices(page: u64) -> [usize; 3] {
    [group(page) % 512, block(page) % 512, page % 512].map(|index| index as usize)
}
