//! Compares the proved calls on a store with the model and the Rust.

pub mod batch;
pub mod buffer;
pub mod copies;
pub mod counts;
pub mod directed;
pub mod inputs;
pub mod judge;
pub mod large;
pub mod list;
pub mod listed;
pub mod map;
#[cfg_attr(not(feature = "rust"), path = "no_original.rs")]
pub mod original;
pub mod peopled;
pub mod processes;
pub mod release;
pub mod report;
pub mod run;
pub mod tally;
pub mod touched;
pub mod tried;
pub mod uvm_alloc;
pub mod uvm_clear;
pub mod uvm_copy;
pub mod uvm_dealloc;
pub mod uvm_init;
pub mod uvm_unmap;
pub mod uvmcreate;
