//! A generator of random numbers that starts at a fixed seed, so that every run sees the same ones.

pub const SEED: u64 = 0x526F_6E61_6B76_6573;

/// How far the starts of two streams lie apart.
const STREAM: u64 = 0xD1B5_4A32_D192_ED03;

/// A splitmix64 generator.
#[derive(Clone)]
pub struct Random(u64);

impl Random {
    /// The numbers of one stream; stream 0 starts at the seed.
    pub fn new(stream: u64) -> Self {
        Random(SEED.wrapping_add(stream.wrapping_mul(STREAM)))
    }

    /// A number with all bits alike.
    pub fn uniform(&mut self) -> u64 {
        self.0 = self.0.wrapping_add(0x9E37_79B9_7F4A_7C15);
        let mut mixed = self.0;
        mixed = (mixed ^ mixed >> 30).wrapping_mul(0xBF58_476D_1CE4_E5B9);
        mixed = (mixed ^ mixed >> 27).wrapping_mul(0x94D0_49BB_1331_11EB);
        mixed ^ mixed >> 31
    }

    /// A number below a bound.
    pub fn below(&mut self, bound: u64) -> u64 {
        self.uniform() % bound
    }
}
