// `process`: no process runs, so the functions that ask for one get none. The types are there to be named.

use crate::memory::PageTable;
use std::cell::UnsafeCell;

pub struct CpuManager;

pub static CPU_MANAGER: CpuManager = CpuManager;

pub struct Process {
    pub data: UnsafeCell<ProcessData>,
}

pub struct ProcessData {
    pub address_space: Option<SharedSpace>,
}

#[derive(Clone)]
pub struct SharedSpace;

pub struct AddressSpace {
    pub page_table: PageTable,
}

impl CpuManager {
    /// The process that runs: none.
    pub fn myproc(&self) -> Option<&'static mut Process> {
        None
    }
}

impl SharedSpace {
    /// Not reached, since there is no process.
    pub fn acquire(&self) -> &'static mut AddressSpace {
        unreachable!("no process has an address space here")
    }
}
