//! A number that stands for the table words, the frame bytes and the bytes that are lent: from 1 on, each word and then
//! each byte in turn, the digest times a factor and the word or byte, modulo a prime.

use crate::model::Store;

const PRIME: u64 = 0xFFFF_FFFB;
const FACTOR: u64 = 0x100_0193;

pub fn digest(store: &Store, lent: &[u8]) -> u64 {
    let bytes = store.bytes.iter().chain(lent).map(|&byte| byte.into());
    let numbers = store.words.iter().copied().chain(bytes);
    numbers.fold(1, |digest, number| (digest * FACTOR + number % PRIME) % PRIME)
}
