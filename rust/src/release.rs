//! Giving back all tables of a root, and the calls made of parts, which take its pages out first.

use crate::archive;
use crate::{Refusal, Store};

impl Store<'_> {
    /// Gives back every table of a root, the root included, and answers how many they were. Tables that are given back are
    /// zero and free again; frames stay as they are.
    ///
    /// Refuses with [`Sizes`](Refusal::Sizes), [`NotWellFormed`](Refusal::NotWellFormed), [`NoRoot`](Refusal::NoRoot),
    /// [`PageLeft`](Refusal::PageLeft).
    ///
    /// ```
    /// # use ronakvesh::{PhysicalAddress, Refusal, Store, VirtualAddress};
    /// # let (mut words, mut tmarks, mut bytes, mut fmarks) = ([0; 512 * 3], [0; 3], [0; 4096 * 2], [0; 2]);
    /// # let mut store = Store { words: &mut words, tmarks: &mut tmarks, bytes: &mut bytes, fmarks: &mut fmarks };
    /// let root = store.uvmcreate()?;
    /// store.map(root, VirtualAddress(0), PhysicalAddress(0x8000_0000), 4096, 22)?;
    /// assert_eq!(store.free(root), Err(Refusal::PageLeft));
    /// store.uvm_unmap(root, VirtualAddress(0), 1, false)?;
    /// assert_eq!(store.free(root), Ok(3));
    /// assert_eq!(store.tmarks, [0, 0, 0]);
    /// assert_eq!(store.free(root), Err(Refusal::NoRoot));
    /// # Ok::<(), ronakvesh::Refusal>(())
    /// ```
    pub fn free(&mut self, root: u64) -> Result<u64, Refusal> {
        archive::ronakvesh_free(self, root)
    }

    /// Takes the pages that `size` bytes from 0 on lie in out of a root, and gives back their pool frames, which keep their
    /// bytes; then gives back the tables as [`free`](Store::free) does, and answers how many they were. For size 0 no page is
    /// taken out.
    ///
    /// Refuses with [`Sizes`](Refusal::Sizes), [`NotWellFormed`](Refusal::NotWellFormed), [`NoRoot`](Refusal::NoRoot); for
    /// the pages with [`TooHigh`](Refusal::TooHigh), [`NotMapped`](Refusal::NotMapped), [`OnlyValid`](Refusal::OnlyValid);
    /// then, where a page would be left, with [`PageLeft`](Refusal::PageLeft).
    ///
    /// ```
    /// # use ronakvesh::{Refusal, Store};
    /// # let (mut words, mut tmarks, mut bytes, mut fmarks) = ([0; 512 * 3], [0; 3], [0; 4096 * 2], [0; 2]);
    /// # let mut store = Store { words: &mut words, tmarks: &mut tmarks, bytes: &mut bytes, fmarks: &mut fmarks };
    /// let root = store.uvmcreate()?;
    /// store.uvm_alloc(root, 0, 8192)?;
    /// assert_eq!(store.uvm_free(root, 12288), Err(Refusal::NotMapped));
    /// assert_eq!(store.uvm_free(root, 4096), Err(Refusal::PageLeft));
    /// assert_eq!(store.uvm_free(root, 4097), Ok(3));
    /// assert_eq!((store.tmarks[0], &*store.fmarks), (0, &[0, 0][..]));
    /// # Ok::<(), ronakvesh::Refusal>(())
    /// ```
    pub fn uvm_free(&mut self, root: u64, size: u64) -> Result<u64, Refusal> {
        archive::ronakvesh_uvm_free(self, root, size)
    }

    /// As [`uvm_free`](Store::uvm_free), after the page TRAMPOLINE, at 0x3F_FFFF_F000, has been taken out without giving a
    /// frame back.
    ///
    /// Refuses with [`Sizes`](Refusal::Sizes), [`NotWellFormed`](Refusal::NotWellFormed), [`NoRoot`](Refusal::NoRoot); for
    /// TRAMPOLINE with [`HeldWindow`](Refusal::HeldWindow), [`NotMapped`](Refusal::NotMapped),
    /// [`OnlyValid`](Refusal::OnlyValid); then as `uvm_free` does.
    ///
    /// ```
    /// # use ronakvesh::{PhysicalAddress, Refusal, Store, VirtualAddress};
    /// # let (mut words, mut tmarks, mut bytes, mut fmarks) = ([0; 512 * 5], [0; 5], [0; 4096 * 2], [0; 2]);
    /// # let mut store = Store { words: &mut words, tmarks: &mut tmarks, bytes: &mut bytes, fmarks: &mut fmarks };
    /// let root = store.uvmcreate()?;
    /// store.uvm_alloc(root, 0, 4096)?;
    /// assert_eq!(store.free_shared_user_pagetable(root, 4096), Err(Refusal::NotMapped));
    /// store.map(root, VirtualAddress(0x3F_FFFF_F000), PhysicalAddress(0x8000_0000), 4096, 10)?;
    /// assert_eq!(store.free_shared_user_pagetable(root, 4096), Ok(5));
    /// # Ok::<(), ronakvesh::Refusal>(())
    /// ```
    pub fn free_shared_user_pagetable(&mut self, root: u64, size: u64) -> Result<u64, Refusal> {
        archive::ronakvesh_free_shared_user_pagetable(self, root, size)
    }

    /// As [`uvm_free`](Store::uvm_free), after the page TRAMPOLINE, at 0x3F_FFFF_F000, and then the page TRAPFRAME, at
    /// 0x3F_FFFF_E000, have been taken out without giving a frame back.
    ///
    /// Refuses with [`Sizes`](Refusal::Sizes), [`NotWellFormed`](Refusal::NotWellFormed), [`NoRoot`](Refusal::NoRoot); for
    /// TRAMPOLINE, and then for TRAPFRAME, with [`HeldWindow`](Refusal::HeldWindow), [`NotMapped`](Refusal::NotMapped),
    /// [`OnlyValid`](Refusal::OnlyValid); then as `uvm_free` does.
    ///
    /// ```
    /// # use ronakvesh::{PhysicalAddress, Refusal, Store, VirtualAddress};
    /// # let (mut words, mut tmarks, mut bytes, mut fmarks) = ([0; 512 * 5], [0; 5], [0; 4096 * 2], [0; 2]);
    /// # let mut store = Store { words: &mut words, tmarks: &mut tmarks, bytes: &mut bytes, fmarks: &mut fmarks };
    /// let root = store.uvmcreate()?;
    /// store.uvm_alloc(root, 0, 4096)?;
    /// store.map(root, VirtualAddress(0x3F_FFFF_F000), PhysicalAddress(0x8000_0000), 4096, 10)?;
    /// assert_eq!(store.proc_free_pagetable(root, 4096), Err(Refusal::NotMapped));
    /// store.map(root, VirtualAddress(0x3F_FFFF_E000), PhysicalAddress(0x9000_0000), 4096, 6)?;
    /// assert_eq!(store.free_shared_user_pagetable(root, 4096), Err(Refusal::PageLeft));
    /// assert_eq!(store.proc_free_pagetable(root, 4096), Ok(5));
    /// # Ok::<(), ronakvesh::Refusal>(())
    /// ```
    pub fn proc_free_pagetable(&mut self, root: u64, size: u64) -> Result<u64, Refusal> {
        archive::ronakvesh_proc_free_pagetable(self, root, size)
    }
}
