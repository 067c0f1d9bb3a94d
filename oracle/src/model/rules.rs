//! W1 to W5, each as document 01 says it. Each is judged alone: levels follow the marks, whatever the words are.

use super::entries::{address, frame_at, is_held, pointer, pool_frame, RESERVED_FROM, V};
use super::levels::level;
use super::numbers::{FREE, ROOT, ROOT_END};
use super::store::{mark_of, marked_word, table_of, words_of};
use super::Store;

/// The rules in their order.
pub const RULES: [fn(&Store) -> bool; 5] = [w1, w2, w3, w4, w5];

/// Whether a store of right lengths is well formed.
pub fn well_formed(store: &Store) -> bool {
    RULES.iter().all(|rule| rule(store))
}

/// W1: a free table is all zero.
fn w1(store: &Store) -> bool {
    let mut free = (0..store.tables()).filter(|&table| store.table_marks[table] == FREE);
    free.all(|table| is_zero(store.table(table)))
}

/// W2: a table marked m >= 2 is pointed at by word m-2, which lies in a table of level 2 or 1.
fn w2(store: &Store) -> bool {
    (0..store.tables()).all(|table| match marked_word(store.table_marks[table]) {
        None => true,
        Some(word) => {
            store.words.get(word) == Some(&pointer(table)) && matches!(level(store, table_of(word)), Some(2 | 1))
        }
    })
}

/// W3: at levels 2 and 1 each word is 0 or a pointer to a table that it owns; the upper half of a root is 0.
fn w3(store: &Store) -> bool {
    (0..store.tables()).all(|table| match level(store, table) {
        Some(2 | 1) => {
            words_of(table).all(|word| is_zero_or_pointer(store, word))
                && (store.table_marks[table] != ROOT || is_zero(&store.table(table)[ROOT_END..]))
        }
        _ => true,
    })
}

/// W4: at level 0 each word is 0 or a page.
fn w4(store: &Store) -> bool {
    (0..store.tables()).all(|table| match level(store, table) {
        Some(0) => words_of(table).all(|word| is_zero_or_page(store, word)),
        _ => true,
    })
}

/// W5: a frame's mark is 0, or m >= 2 where word m-2 stands at level 0 and names it.
fn w5(store: &Store) -> bool {
    (0..store.frames()).all(|frame| match (store.frame_marks[frame], marked_word(store.frame_marks[frame])) {
        (FREE, _) => true,
        (_, None) => false,
        (_, Some(word)) => {
            word < store.words.len()
                && level(store, table_of(word)) == Some(0)
                && address(store.words[word]) == frame_at(frame)
        }
    })
}

fn is_zero(words: &[u64]) -> bool {
    words.iter().fold(0, |bits, word| bits | word) == 0
}

/// Whether a word is 0, or 0x4000_0000 + 1024t + 1 for a t < T whose mark names this word.
fn is_zero_or_pointer(store: &Store, word: usize) -> bool {
    let owned = |table| store.words[word] == pointer(table) && store.table_marks[table] == mark_of(word);
    store.words[word] == 0 || (0..store.tables()).any(owned)
}

/// Whether a word is 0, or has V and bits 54 to 63 clear, and its frame is outside the held window or is a pool
/// frame whose mark names this word.
fn is_zero_or_page(store: &Store, word: usize) -> bool {
    let entry = store.words[word];
    let owned = |frame: usize| store.frame_marks[frame] == mark_of(word);
    let frame_fits = !is_held(address(entry)) || pool_frame(store, address(entry)).is_some_and(owned);
    entry == 0 || (entry & V != 0 && entry >> RESERVED_FROM == 0 && frame_fits)
}
