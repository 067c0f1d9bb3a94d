//! check.rs: the check as safe Rust, by slices and iterators. One pass over the words, with the level of each table
//! worked out once.

use std::slice::from_raw_parts;

/// Words of a table.
const ENTRIES: usize = 512;
const MAX_TABLES: usize = 512;
const MAX_FRAMES: usize = 4096;
const FRAME_BYTES: usize = 4096;
/// The word that points to table 0; the next table's is 1024 more.
const POINTER: u64 = 0x4000_0001;
/// The first frame number of the held window, and the first one after it.
const HELD: u64 = 0x10_0000;
const HELD_END: u64 = 0x12_0000;
/// The number of pool frame 0.
const POOL: u64 = 0x11_0000;

/// The level of a table, None for a table without one.
type Level = Option<u8>;

#[derive(Clone, Copy)]
struct Store<'a> {
    words: &'a [u64],
    table_marks: &'a [u32],
    bytes: &'a [u8],
    frame_marks: &'a [u32],
}

/// Does marks have, at index i, the mark that names word w?
fn names(marks: &[u32], i: u64, w: usize) -> bool {
    marks.get(i as usize).is_some_and(|&mark| mark as usize == w + 2)
}

/// W3 of the word of number w.
fn pointer_ok(word: u64, w: usize, table_marks: &[u32]) -> bool {
    let offset = word.wrapping_sub(POINTER);
    word == 0 || (offset % 1024 == 0 && names(table_marks, offset / 1024, w))
}

/// W4 of the word of number w.
fn leaf_ok(word: u64, w: usize, frame_marks: &[u32]) -> bool {
    let frame = word >> 10;
    word == 0
        || (word & 1 == 1
            && word >> 54 == 0
            && (!(HELD..HELD_END).contains(&frame) || names(frame_marks, frame.wrapping_sub(POOL), w)))
}

fn zeros(words: &[u64]) -> bool {
    words.iter().fold(0, |any, word| any | word) == 0
}

impl Store<'_> {
    fn sized(&self) -> bool {
        (1..=MAX_TABLES).contains(&self.table_marks.len())
            && (1..=MAX_FRAMES).contains(&self.frame_marks.len())
            && self.words.len() == ENTRIES * self.table_marks.len()
            && self.bytes.len() == FRAME_BYTES * self.frame_marks.len()
    }

    /// The level of table t by the marks: 2 for a root, one less for each pointer on the way down to t.
    fn level(&self, mut t: usize) -> Level {
        for level in [2, 1, 0] {
            match *self.table_marks.get(t)? {
                0 => return None,
                1 => return Some(level),
                mark => t = (mark as usize - 2) / ENTRIES,
            }
        }
        None
    }

    /// The levels of all tables, and None for those that are not there.
    fn levels(&self) -> [Level; MAX_TABLES] {
        let mut levels = [None; MAX_TABLES];
        for (t, level) in levels.iter_mut().enumerate().take(self.table_marks.len()) {
            *level = self.level(t);
        }
        levels
    }

    /// W2 of table t.
    fn table_ok(&self, t: usize, mark: u32, level: Level) -> bool {
        mark < 2 || (level.is_some() && self.words.get(mark as usize - 2) == Some(&(POINTER + 1024 * t as u64)))
    }

    /// W1, W3 and W4 of the words of table t.
    fn words_ok(&self, t: usize, table: &[u64], level: Level) -> bool {
        let mut numbered = table.iter().zip(ENTRIES * t..);
        match level {
            None => zeros(table),
            Some(0) => numbered.all(|(&word, w)| leaf_ok(word, w, self.frame_marks)),
            Some(1) => numbered.all(|(&word, w)| pointer_ok(word, w, self.table_marks)),
            Some(_) => {
                numbered.take(ENTRIES / 2).all(|(&word, w)| pointer_ok(word, w, self.table_marks))
                    && zeros(&table[ENTRIES / 2..])
            }
        }
    }

    /// W5 of frame f.
    fn frame_ok(&self, f: usize, mark: u32, levels: &[Level]) -> bool {
        let named = |w: usize| {
            levels.get(w / ENTRIES) == Some(&Some(0))
                && self.words.get(w).is_some_and(|word| word >> 10 == POOL + f as u64)
        };
        mark == 0 || (mark >= 2 && named(mark as usize - 2))
    }

    fn well_formed(&self) -> bool {
        let levels = &self.levels()[..self.table_marks.len()];
        let mut tables = self.table_marks.iter().zip(levels).enumerate();
        let mut parts = self.words.chunks_exact(ENTRIES).zip(levels).enumerate();
        let mut frames = self.frame_marks.iter().enumerate();
        tables.all(|(t, (&mark, level))| self.table_ok(t, mark, *level))
            && parts.all(|(t, (table, level))| self.words_ok(t, table, *level))
            && frames.all(|(f, &mark)| self.frame_ok(f, mark, levels))
    }
}

#[repr(C)]
pub struct Reply {
    number: u64,
    value: u64,
}

/// The check for C.
///
/// # Safety
/// Each pointer has as many elements behind it as the length after it says.
#[no_mangle]
pub unsafe extern "C" fn check_rust(
    words: *const u64,
    nwords: usize,
    table_marks: *const u32,
    ntables: usize,
    bytes: *const u8,
    nbytes: usize,
    frame_marks: *const u32,
    nframes: usize,
) -> Reply {
    let store = Store {
        words: from_raw_parts(words, nwords),
        table_marks: from_raw_parts(table_marks, ntables),
        bytes: from_raw_parts(bytes, nbytes),
        frame_marks: from_raw_parts(frame_marks, nframes),
    };
    if store.sized() {
        Reply { number: 0, value: store.well_formed().into() }
    } else {
        Reply { number: 1, value: 0 }
    }
}
