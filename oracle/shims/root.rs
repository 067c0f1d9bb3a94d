// The root of the tree in which the Rust is compiled: its own files and the shims, by name.

#[macro_use]
mod bitflags;
#[macro_use]
mod println;

pub mod arch;
pub mod boxed;
pub mod process;
pub mod trap;
pub mod window;

#[allow(warnings, clippy::all)]
pub mod memory;
#[allow(warnings, clippy::all)]
pub mod misc;

/// `alloc::vec`, the module and the macro.
pub use std::vec;

/// `bit_field::BitField`, which the Rust imports and does not use.
pub trait BitField {}
