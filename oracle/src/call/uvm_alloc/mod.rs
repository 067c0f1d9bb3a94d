//! What `uvm_alloc` is called with, and its listed differences.

pub mod inputs;
pub mod listed;
