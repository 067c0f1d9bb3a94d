//! What `uvm_unmap` is called with, and its listed differences.

pub mod inputs;
pub mod listed;
