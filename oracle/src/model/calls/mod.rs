//! The calls of document 01, one in each file. Each answers its value or the refusal's number,
//! and each refusal comes before the first write; in a call made of parts what the parts before have written is taken back.

mod as_satp;
mod copy_in;
mod copy_in_str;
mod copy_out;
mod free;
mod free_shared_user_pagetable;
mod map;
mod pgt_translate;
mod proc_free_pagetable;
mod set_up;
mod uvm_alloc;
mod uvm_clear;
mod uvm_copy;
mod uvm_dealloc;
mod uvm_free;
mod uvm_init;
mod uvm_unmap;
mod uvmcreate;

pub use as_satp::as_satp;
pub use copy_in::copy_in;
pub use copy_in_str::copy_in_str;
pub use copy_out::copy_out;
pub use free::free;
pub use free_shared_user_pagetable::free_shared_user_pagetable;
pub use map::map;
pub use pgt_translate::pgt_translate;
pub use proc_free_pagetable::proc_free_pagetable;
pub use set_up::set_up;
pub use uvm_alloc::uvm_alloc;
pub use uvm_clear::uvm_clear;
pub use uvm_copy::uvm_copy;
pub use uvm_dealloc::uvm_dealloc;
pub use uvm_free::uvm_free;
pub use uvm_init::uvm_init;
pub use uvm_unmap::uvm_unmap;
pub use uvmcreate::uvmcreate;
