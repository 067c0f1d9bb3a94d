//! Times the proved calls, with their check and without it, and the Rust's or the C library's, on one memory.

pub mod calls;
pub mod case;
pub mod clock;
pub mod held;
pub mod memory;
pub mod rust;
pub mod stores;
pub mod unchecked;
