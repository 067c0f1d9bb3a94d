//! A store and the calls on it.

use crate::archive;
use crate::{PhysicalAddress, Refusal, VirtualAddress};

/// A store of page tables: four slices that the caller lends.
///
/// T is the number of table marks, 1 to 512, and F the number of frame marks, 1 to 4,096. The words are then 512 T and the
/// bytes 4,096 F. Table t lies at the physical address 0x1_0000_0000 + 4096 t, frame f at 0x1_1000_0000 + 4096 f.
///
/// Any contents are allowed, since every call but [`set_up`](Store::set_up) checks the whole store first. So the fields are
/// open to the caller, between two calls as well.
#[derive(Debug)]
pub struct Store<'a> {
    /// The table words, 512 a table.
    pub words: &'a mut [u64],
    /// The table marks, one a table.
    pub tmarks: &'a mut [u32],
    /// The frame bytes, 4,096 a frame.
    pub bytes: &'a mut [u8],
    /// The frame marks, one a frame.
    pub fmarks: &'a mut [u32],
}

impl Store<'_> {
    /// Writes zeros to all four slices: every table and every frame is free, and the store is well formed.
    ///
    /// Refuses with [`Sizes`](Refusal::Sizes).
    ///
    /// ```
    /// # use ronakvesh::{Refusal, Store};
    /// let (mut words, mut tmarks, mut bytes, mut fmarks) = ([7; 512 * 2], [7; 2], [7; 4096], [7; 1]);
    /// let mut store = Store { words: &mut words, tmarks: &mut tmarks, bytes: &mut bytes, fmarks: &mut fmarks };
    /// assert_eq!(store.set_up(), Ok(()));
    /// assert!(words.iter().all(|word| *word == 0));
    ///
    /// let mut store = Store { words: &mut words[1..], tmarks: &mut tmarks, bytes: &mut bytes, fmarks: &mut fmarks };
    /// assert_eq!(store.set_up(), Err(Refusal::Sizes));
    /// ```
    pub fn set_up(&mut self) -> Result<(), Refusal> {
        archive::ronakvesh_set_up(self).map(|_| ())
    }

    /// Whether the store is well formed: yes exactly where W1 to W5 of document 01 hold.
    ///
    /// Refuses with [`Sizes`](Refusal::Sizes).
    ///
    /// ```
    /// # use ronakvesh::Store;
    /// # let (mut words, mut tmarks, mut bytes, mut fmarks) = ([0; 512 * 2], [0; 2], [0; 4096], [0; 1]);
    /// # let mut store = Store { words: &mut words, tmarks: &mut tmarks, bytes: &mut bytes, fmarks: &mut fmarks };
    /// store.set_up()?;
    /// assert_eq!(store.check(), Ok(true));
    /// store.words[0] = 1;
    /// assert_eq!(store.check(), Ok(false));
    /// # Ok::<(), ronakvesh::Refusal>(())
    /// ```
    pub fn check(&self) -> Result<bool, Refusal> {
        archive::ronakvesh_check(self).map(|yes| yes != 0)
    }

    /// Makes the lowest free table a root without pages, and answers its number.
    ///
    /// Refuses with [`Sizes`](Refusal::Sizes), [`NotWellFormed`](Refusal::NotWellFormed),
    /// [`TooFewTables`](Refusal::TooFewTables).
    ///
    /// ```
    /// # use ronakvesh::{Refusal, Store};
    /// # let (mut words, mut tmarks, mut bytes, mut fmarks) = ([0; 512 * 2], [0; 2], [0; 4096], [0; 1]);
    /// # let mut store = Store { words: &mut words, tmarks: &mut tmarks, bytes: &mut bytes, fmarks: &mut fmarks };
    /// // a fresh store of two tables
    /// assert_eq!(store.uvmcreate(), Ok(0));
    /// assert_eq!(store.uvmcreate(), Ok(1));
    /// assert_eq!(store.uvmcreate(), Err(Refusal::TooFewTables));
    /// ```
    pub fn uvmcreate(&mut self) -> Result<u64, Refusal> {
        archive::ronakvesh_uvmcreate(self)
    }

    /// Maps the pages that `size` bytes from `va` on lie in to the frames from `pa` on, with the permissions and V, in a
    /// root, and answers how many tables that took. An unaligned `pa` is rounded down.
    ///
    /// Refuses with [`Sizes`](Refusal::Sizes), [`NotWellFormed`](Refusal::NotWellFormed), [`NoRoot`](Refusal::NoRoot),
    /// [`TooHigh`](Refusal::TooHigh), [`Permissions`](Refusal::Permissions), [`FrameTooHigh`](Refusal::FrameTooHigh),
    /// [`HeldWindow`](Refusal::HeldWindow), [`MappedAlready`](Refusal::MappedAlready),
    /// [`TooFewTables`](Refusal::TooFewTables).
    ///
    /// ```
    /// # use ronakvesh::{PhysicalAddress, Refusal, Store, VirtualAddress};
    /// # let (mut words, mut tmarks, mut bytes, mut fmarks) = ([0; 512 * 3], [0; 3], [0; 4096], [0; 1]);
    /// # let mut store = Store { words: &mut words, tmarks: &mut tmarks, bytes: &mut bytes, fmarks: &mut fmarks };
    /// let root = store.uvmcreate()?;
    /// let (va, pa) = (VirtualAddress(0x1000), PhysicalAddress(0x8000_0000));
    /// assert_eq!(store.map(root, va, pa, 4096, 22), Ok(2));
    /// assert_eq!(store.map(root, va, pa, 4096, 22), Err(Refusal::MappedAlready));
    /// # Ok::<(), ronakvesh::Refusal>(())
    /// ```
    pub fn map(
        &mut self,
        root: u64,
        va: VirtualAddress,
        pa: PhysicalAddress,
        size: u64,
        perm: u64,
    ) -> Result<u64, Refusal> {
        archive::ronakvesh_map(self, root, va.0, pa.0, size, perm)
    }

    /// Takes `pages` pages, from that of `va` on, out of a root: their words become 0. With `freeing` their pool frames are
    /// given back and keep their bytes; without it there may be none. Frames outside the pool are left alone, and tables stay.
    ///
    /// Refuses with [`Sizes`](Refusal::Sizes), [`NotWellFormed`](Refusal::NotWellFormed), [`NoRoot`](Refusal::NoRoot),
    /// [`TooHigh`](Refusal::TooHigh), [`NotAligned`](Refusal::NotAligned), [`HeldWindow`](Refusal::HeldWindow),
    /// [`NotMapped`](Refusal::NotMapped), [`OnlyValid`](Refusal::OnlyValid).
    ///
    /// ```
    /// # use ronakvesh::{PhysicalAddress, Refusal, Store, VirtualAddress};
    /// # let (mut words, mut tmarks, mut bytes, mut fmarks) = ([0; 512 * 3], [0; 3], [0; 4096], [0; 1]);
    /// # let mut store = Store { words: &mut words, tmarks: &mut tmarks, bytes: &mut bytes, fmarks: &mut fmarks };
    /// let root = store.uvmcreate()?;
    /// let (va, pa) = (VirtualAddress(0x1000), PhysicalAddress(0x8000_0000));
    /// assert_eq!(store.map(root, va, pa, 8192, 22), Ok(2));
    /// assert_eq!(store.uvm_unmap(root, va, 3, false), Err(Refusal::NotMapped));
    /// assert_eq!(store.uvm_unmap(root, va, 2, false), Ok(()));
    /// assert_eq!(store.map(root, va, pa, 8192, 22), Ok(0));
    /// # Ok::<(), ronakvesh::Refusal>(())
    /// ```
    pub fn uvm_unmap(&mut self, root: u64, va: VirtualAddress, pages: u64, freeing: bool) -> Result<(), Refusal> {
        archive::ronakvesh_uvm_unmap(self, root, va.0, pages, freeing).map(|_| ())
    }

    /// Takes U away from the page of `va` in a root. A page that is not mapped stays so.
    ///
    /// Refuses with [`Sizes`](Refusal::Sizes), [`NotWellFormed`](Refusal::NotWellFormed), [`NoRoot`](Refusal::NoRoot),
    /// [`TooHigh`](Refusal::TooHigh), and with [`NotMapped`](Refusal::NotMapped) only where the page has no level-0 table.
    ///
    /// ```
    /// # use ronakvesh::{PhysicalAddress, Refusal, Store, VirtualAddress};
    /// # let (mut words, mut tmarks, mut bytes, mut fmarks) = ([0; 512 * 3], [0; 3], [0; 4096], [0; 1]);
    /// # let mut store = Store { words: &mut words, tmarks: &mut tmarks, bytes: &mut bytes, fmarks: &mut fmarks };
    /// let root = store.uvmcreate()?;
    /// let va = VirtualAddress(0x1000);
    /// assert_eq!(store.uvm_clear(root, va), Err(Refusal::NotMapped));
    /// store.map(root, va, PhysicalAddress(0x8000_0000), 4096, 22)?;
    /// assert_eq!(store.uvm_clear(root, va), Ok(()));
    /// assert_eq!(store.pgt_translate(root, va), Err(Refusal::NotUser));
    /// # Ok::<(), ronakvesh::Refusal>(())
    /// ```
    pub fn uvm_clear(&mut self, root: u64, va: VirtualAddress) -> Result<(), Refusal> {
        archive::ronakvesh_uvm_clear(self, root, va.0).map(|_| ())
    }

    /// Gives page 0 of a root the lowest free frame, with the flags 31 (V, R, W, X and U): it holds the source, then zeros.
    ///
    /// Refuses with [`Sizes`](Refusal::Sizes), [`NotWellFormed`](Refusal::NotWellFormed), [`NoRoot`](Refusal::NoRoot),
    /// [`LongSource`](Refusal::LongSource), [`MappedAlready`](Refusal::MappedAlready),
    /// [`TooFewFrames`](Refusal::TooFewFrames), [`TooFewTables`](Refusal::TooFewTables).
    ///
    /// ```
    /// # use ronakvesh::{PhysicalAddress, Refusal, Store, VirtualAddress};
    /// # let (mut words, mut tmarks, mut bytes, mut fmarks) = ([0; 512 * 3], [0; 3], [0; 4096], [0; 1]);
    /// # let mut store = Store { words: &mut words, tmarks: &mut tmarks, bytes: &mut bytes, fmarks: &mut fmarks };
    /// let root = store.uvmcreate()?;
    /// assert_eq!(store.uvm_init(root, &[7; 4096]), Err(Refusal::LongSource));
    /// assert_eq!(store.uvm_init(root, &[7; 4095]), Ok(()));
    /// assert_eq!(store.bytes[4094..4096], [7, 0]);
    /// assert_eq!(store.pgt_translate(root, VirtualAddress(0)), Ok(PhysicalAddress(0x1_1000_0000)));
    /// assert_eq!(store.uvm_init(root, &[]), Err(Refusal::MappedAlready));
    /// # Ok::<(), ronakvesh::Refusal>(())
    /// ```
    pub fn uvm_init(&mut self, root: u64, src: &[u8]) -> Result<(), Refusal> {
        archive::ronakvesh_uvm_init(self, root, src).map(|_| ())
    }

    /// Grows what a root maps from page 0 on from `old` to `new` bytes: the pages that `new` bytes take and `old` bytes do
    /// not each get the lowest free frame, zeroed, with the flags 31 (V, R, W, X and U), upward. Answers `new`, or `old`
    /// where `new` is less, and then no page is added.
    ///
    /// Refuses with [`Sizes`](Refusal::Sizes), [`NotWellFormed`](Refusal::NotWellFormed), [`NoRoot`](Refusal::NoRoot),
    /// [`TooHigh`](Refusal::TooHigh), [`MappedAlready`](Refusal::MappedAlready),
    /// [`TooFewFrames`](Refusal::TooFewFrames), [`TooFewTables`](Refusal::TooFewTables).
    ///
    /// ```
    /// # use ronakvesh::{PhysicalAddress, Refusal, Store, VirtualAddress};
    /// # let (mut words, mut tmarks, mut bytes, mut fmarks) = ([0; 512 * 3], [0; 3], [0; 4096 * 2], [0; 2]);
    /// # let mut store = Store { words: &mut words, tmarks: &mut tmarks, bytes: &mut bytes, fmarks: &mut fmarks };
    /// // a store of two frames
    /// let root = store.uvmcreate()?;
    /// assert_eq!(store.uvm_alloc(root, 0, 8193), Err(Refusal::TooFewFrames));
    /// assert_eq!(store.uvm_alloc(root, 1, 4096), Ok(4096));
    /// assert_eq!(store.pgt_translate(root, VirtualAddress(0)), Err(Refusal::NotMapped));
    /// assert_eq!(store.uvm_alloc(root, 0, 4097), Ok(4097));
    /// assert_eq!(store.pgt_translate(root, VirtualAddress(4096)), Ok(PhysicalAddress(0x1_1000_1000)));
    /// assert_eq!(store.uvm_alloc(root, 4097, 1), Ok(4097));
    /// # Ok::<(), ronakvesh::Refusal>(())
    /// ```
    pub fn uvm_alloc(&mut self, root: u64, old: u64, new: u64) -> Result<u64, Refusal> {
        archive::ronakvesh_uvm_alloc(self, root, old, new)
    }

    /// Shrinks what a root maps from page 0 on from `old` to `new` bytes: the pages that `old` bytes take and `new` bytes
    /// do not leave the root, and their pool frames are given back and keep their bytes. Frames outside the pool are left
    /// alone, and tables stay. Answers `new`, or `old` where `new` is no less, and then no page leaves.
    ///
    /// Refuses with [`Sizes`](Refusal::Sizes), [`NotWellFormed`](Refusal::NotWellFormed), [`NoRoot`](Refusal::NoRoot),
    /// [`TooHigh`](Refusal::TooHigh), [`NotMapped`](Refusal::NotMapped), [`OnlyValid`](Refusal::OnlyValid).
    ///
    /// ```
    /// # use ronakvesh::{PhysicalAddress, Refusal, Store, VirtualAddress};
    /// # let (mut words, mut tmarks, mut bytes, mut fmarks) = ([0; 512 * 3], [0; 3], [0; 4096], [0; 1]);
    /// # let mut store = Store { words: &mut words, tmarks: &mut tmarks, bytes: &mut bytes, fmarks: &mut fmarks };
    /// let root = store.uvmcreate()?;
    /// store.map(root, VirtualAddress(0), PhysicalAddress(0x8000_0000), 8192, 22)?;
    /// assert_eq!(store.uvm_dealloc(root, 8193, 1), Err(Refusal::NotMapped));
    /// assert_eq!(store.uvm_dealloc(root, 8192, 1), Ok(1));
    /// assert_eq!(store.pgt_translate(root, VirtualAddress(4095)), Ok(PhysicalAddress(0x8000_0000)));
    /// assert_eq!(store.pgt_translate(root, VirtualAddress(4096)), Err(Refusal::NotMapped));
    /// assert_eq!(store.uvm_dealloc(root, 1, 8192), Ok(1));
    /// # Ok::<(), ronakvesh::Refusal>(())
    /// ```
    pub fn uvm_dealloc(&mut self, root: u64, old: u64, new: u64) -> Result<u64, Refusal> {
        archive::ronakvesh_uvm_dealloc(self, root, old, new)
    }

    /// The address of the frame that the page of `va` resolves to in a root, without the offset.
    ///
    /// Refuses with [`Sizes`](Refusal::Sizes), [`NotWellFormed`](Refusal::NotWellFormed), [`NoRoot`](Refusal::NoRoot),
    /// [`TooHigh`](Refusal::TooHigh), [`NotMapped`](Refusal::NotMapped), [`NotUser`](Refusal::NotUser).
    ///
    /// ```
    /// # use ronakvesh::{PhysicalAddress, Refusal, Store, VirtualAddress};
    /// # let (mut words, mut tmarks, mut bytes, mut fmarks) = ([0; 512 * 3], [0; 3], [0; 4096], [0; 1]);
    /// # let mut store = Store { words: &mut words, tmarks: &mut tmarks, bytes: &mut bytes, fmarks: &mut fmarks };
    /// let root = store.uvmcreate()?;
    /// store.map(root, VirtualAddress(0x1000), PhysicalAddress(0x8000_0000), 4096, 22)?;
    /// assert_eq!(store.pgt_translate(root, VirtualAddress(0x1004)), Ok(PhysicalAddress(0x8000_0000)));
    /// assert_eq!(store.pgt_translate(root, VirtualAddress(0x2000)), Err(Refusal::NotMapped));
    /// # Ok::<(), ronakvesh::Refusal>(())
    /// ```
    pub fn pgt_translate(&self, root: u64, va: VirtualAddress) -> Result<PhysicalAddress, Refusal> {
        archive::ronakvesh_pgt_translate(self, root, va.0).map(PhysicalAddress)
    }

    /// The number that the satp register takes for a root: mode 8, and the number of the root's frame.
    ///
    /// Refuses with [`Sizes`](Refusal::Sizes), [`NotWellFormed`](Refusal::NotWellFormed), [`NoRoot`](Refusal::NoRoot).
    ///
    /// ```
    /// # use ronakvesh::{Refusal, Store};
    /// # let (mut words, mut tmarks, mut bytes, mut fmarks) = ([0; 512 * 2], [0; 2], [0; 4096], [0; 1]);
    /// # let mut store = Store { words: &mut words, tmarks: &mut tmarks, bytes: &mut bytes, fmarks: &mut fmarks };
    /// let root = store.uvmcreate()?;
    /// assert_eq!(store.as_satp(root), Ok(0x8000_0000_0010_0000));
    /// assert_eq!(store.as_satp(1), Err(Refusal::NoRoot));
    /// # Ok::<(), ronakvesh::Refusal>(())
    /// ```
    pub fn as_satp(&self, root: u64) -> Result<u64, Refusal> {
        archive::ronakvesh_as_satp(self, root)
    }
}
