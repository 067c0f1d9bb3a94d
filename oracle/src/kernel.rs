//! The original kernel's page tables: the Rust's own files, unchanged, among shims.
//! build.rs lays out the tree that is included here. Without the feature `rust` there is nothing.

#![cfg(feature = "rust")]

// The crates that the Rust names are found in this one.
extern crate self as alloc;
extern crate self as bit_field;

include!(concat!(env!("OUT_DIR"), "/kernel/src/root.rs"));
