//! The test that a call makes exactly a change.

use crate::memory::Memory;
use ronakvesh::{Refusal, Store};

/// Holds a call to an answer, and the memory to what `change` makes of it, which is well formed.
#[track_caller]
pub fn makes(
    memory: &mut Memory,
    call: impl FnOnce(&mut Store) -> Result<(), Refusal>,
    change: impl FnOnce(&mut Memory),
) {
    let mut after = memory.clone();
    change(&mut after);
    assert_eq!(call(&mut memory.store()), Ok(()));
    assert!(*memory == after, "the store is another");
    assert_eq!(memory.store().check(), Ok(true));
}
