//! What `uvm_copy` is called with, where the Rust may be run, and its listed differences.

pub mod inputs;
pub mod listed;
