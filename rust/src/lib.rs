//! Page tables of RISC-V Sv39, in memory that the caller lends.
//!
//! A [`Store`] is four slices: tables and their marks, frames and their marks. Its methods are the calls of Ronakvesh, which
//! are written and proved in Rattle and linked from libinterface.a. Every call takes any bytes and any numbers. It answers,
//! or it refuses with a [`Refusal`]; where several reasons apply it gives the one of the smallest number, of the first page
//! that it cannot read in [`copy_in_str`](Store::copy_in_str), of the first part that refuses in a call made of parts, as
//! [`uvm_free`](Store::uvm_free) is, and no byte has changed.
//!
//! ```
//! use ronakvesh::{PhysicalAddress, Store, VirtualAddress};
//!
//! let (mut words, mut tmarks) = ([0; 512 * 8], [0; 8]);
//! let (mut bytes, mut fmarks) = ([0; 4096 * 8], [0; 8]);
//! let mut store = Store { words: &mut words, tmarks: &mut tmarks, bytes: &mut bytes, fmarks: &mut fmarks };
//! store.set_up()?;
//! let root = store.uvmcreate()?;
//! store.map(root, VirtualAddress(0x1000), PhysicalAddress(0x8000_0000), 4096, 22)?;
//! assert_eq!(store.pgt_translate(root, VirtualAddress(0x1004))?, PhysicalAddress(0x8000_0000));
//! # Ok::<(), ronakvesh::Refusal>(())
//! ```
#![no_std]
#![deny(missing_docs)]

mod address;
mod archive;
mod copies;
mod refusal;
mod release;
mod store;

pub use address::{PhysicalAddress, VirtualAddress};
pub use refusal::Refusal;
pub use store::Store;
