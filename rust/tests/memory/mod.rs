//! The memory of a store, and the test that a refusal leaves it as it was.

use core::fmt::Debug;
use ronakvesh::{Refusal, Store};

/// The four slices of a store.
#[derive(Clone, PartialEq)]
pub struct Memory {
    pub words: Vec<u64>,
    pub tmarks: Vec<u32>,
    pub bytes: Vec<u8>,
    pub fmarks: Vec<u32>,
}

impl Memory {
    /// Slices for this many tables and frames, with something in them.
    pub fn of(tables: usize, frames: usize) -> Memory {
        Memory {
            words: vec![7; 512 * tables],
            tmarks: vec![7; tables],
            bytes: vec![7; 4096 * frames],
            fmarks: vec![7; frames],
        }
    }

    /// A store of this many tables and 8 frames, set up, with root 0.
    pub fn with_root(tables: usize) -> Memory {
        let mut memory = Memory::of(tables, 8);
        let mut store = memory.store();
        assert_eq!(store.set_up(), Ok(()));
        assert_eq!(store.uvmcreate(), Ok(0));
        memory
    }

    /// Enters a pool frame in a word, with flags 31, and marks it as that word's.
    pub fn enter(&mut self, word: usize, frame: usize) {
        self.words[word] = 0x4400_0000 + 1024 * frame as u64 + 31;
        self.fmarks[frame] = word as u32 + 2;
        assert_eq!(self.store().check(), Ok(true));
    }

    pub fn store(&mut self) -> Store<'_> {
        Store { words: &mut self.words, tmarks: &mut self.tmarks, bytes: &mut self.bytes, fmarks: &mut self.fmarks }
    }
}

/// Holds a call to a refusal, and the memory to what it was.
#[track_caller]
pub fn refuses<T: Debug + PartialEq>(
    memory: &mut Memory,
    refusal: Refusal,
    call: impl FnOnce(&mut Store) -> Result<T, Refusal>,
) {
    let before = memory.clone();
    assert_eq!(call(&mut memory.store()), Err(refusal));
    assert!(*memory == before, "{refusal:?}: the store has changed");
}
