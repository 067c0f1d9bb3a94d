//! The vectors: chosen calls, with what the Rust answers to each.

pub mod chosen;
pub mod digest;
pub mod lent;
pub mod record;
pub mod source;
