//! What `free`, `uvm_free`, `free_shared_user_pagetable` and `proc_free_pagetable` are called with, what the Rust does there,
//! and their listed differences.

pub mod inputs;
pub mod listed;
pub mod rust;
