//! The copies between the kernel and a process, and from a process to its child.

use crate::archive;
use crate::{Refusal, Store, VirtualAddress};

impl Store<'_> {
    /// Copies the bytes of a root from `va` on to the buffer, as many as it is long. The page of each byte is needed, and
    /// for an empty buffer the page of `va`.
    ///
    /// Refuses with [`Sizes`](Refusal::Sizes), [`NotWellFormed`](Refusal::NotWellFormed), [`NoRoot`](Refusal::NoRoot),
    /// [`TooHigh`](Refusal::TooHigh), [`NotMapped`](Refusal::NotMapped), [`NotUser`](Refusal::NotUser),
    /// [`NoPoolFrame`](Refusal::NoPoolFrame), and then the buffer stays as it was.
    ///
    /// ```
    /// # use ronakvesh::{Refusal, Store, VirtualAddress};
    /// # let (mut words, mut tmarks, mut bytes, mut fmarks) = ([0; 512 * 3], [0; 3], [0; 4096 * 2], [0; 2]);
    /// # let mut store = Store { words: &mut words, tmarks: &mut tmarks, bytes: &mut bytes, fmarks: &mut fmarks };
    /// let root = store.uvmcreate()?;
    /// store.uvm_alloc(root, 0, 8192)?;
    /// store.bytes[4095..4097].copy_from_slice(&[7, 8]);
    /// let mut buffer = [1; 4];
    /// assert_eq!(store.copy_in(root, VirtualAddress(4094), &mut buffer), Ok(()));
    /// assert_eq!(buffer, [0, 7, 8, 0]);
    /// assert_eq!(store.copy_in(root, VirtualAddress(8190), &mut buffer), Err(Refusal::NotMapped));
    /// assert_eq!(buffer, [0, 7, 8, 0]);
    /// # Ok::<(), ronakvesh::Refusal>(())
    /// ```
    pub fn copy_in(&self, root: u64, va: VirtualAddress, dst: &mut [u8]) -> Result<(), Refusal> {
        archive::ronakvesh_copy_in(self, root, va.0, dst).map(|_| ())
    }

    /// Copies the source to the bytes of a root from `va` on. The page of each byte is needed, and for an empty source the
    /// page of `va`.
    ///
    /// Refuses with [`Sizes`](Refusal::Sizes), [`NotWellFormed`](Refusal::NotWellFormed), [`NoRoot`](Refusal::NoRoot),
    /// [`TooHigh`](Refusal::TooHigh), [`NotMapped`](Refusal::NotMapped), [`NotUser`](Refusal::NotUser),
    /// [`NoPoolFrame`](Refusal::NoPoolFrame).
    ///
    /// ```
    /// # use ronakvesh::{Refusal, Store, VirtualAddress};
    /// # let (mut words, mut tmarks, mut bytes, mut fmarks) = ([0; 512 * 3], [0; 3], [0; 4096 * 2], [0; 2]);
    /// # let mut store = Store { words: &mut words, tmarks: &mut tmarks, bytes: &mut bytes, fmarks: &mut fmarks };
    /// let root = store.uvmcreate()?;
    /// store.uvm_alloc(root, 0, 8192)?;
    /// assert_eq!(store.copy_out(root, VirtualAddress(4095), &[7, 8]), Ok(()));
    /// assert_eq!(store.bytes[4094..4098], [0, 7, 8, 0]);
    /// assert_eq!(store.copy_out(root, VirtualAddress(8191), &[7, 8]), Err(Refusal::NotMapped));
    /// assert_eq!(store.bytes[8191], 0);
    /// # Ok::<(), ronakvesh::Refusal>(())
    /// ```
    pub fn copy_out(&mut self, root: u64, va: VirtualAddress, src: &[u8]) -> Result<(), Refusal> {
        archive::ronakvesh_copy_out(self, root, va.0, src).map(|_| ())
    }

    /// Copies the bytes of a root from `va` on, up to the first zero or the end of the buffer, to the buffer; the zero is
    /// not copied, and the rest of the buffer stays. Answers how many bytes were copied and whether a zero was met. Pages
    /// behind the zero, or behind the last byte that the buffer has room for, are not looked at; for an empty buffer the page
    /// of `va` is.
    ///
    /// Refuses with [`Sizes`](Refusal::Sizes), [`NotWellFormed`](Refusal::NotWellFormed), [`NoRoot`](Refusal::NoRoot); and
    /// for the first page on the way that cannot be read with [`TooHigh`](Refusal::TooHigh),
    /// [`NotMapped`](Refusal::NotMapped), [`NotUser`](Refusal::NotUser), [`NoPoolFrame`](Refusal::NoPoolFrame), and then the
    /// buffer stays as it was.
    ///
    /// ```
    /// # use ronakvesh::{Refusal, Store, VirtualAddress};
    /// # let (mut words, mut tmarks, mut bytes, mut fmarks) = ([0; 512 * 3], [0; 3], [0; 4096 * 2], [0; 2]);
    /// # let mut store = Store { words: &mut words, tmarks: &mut tmarks, bytes: &mut bytes, fmarks: &mut fmarks };
    /// let root = store.uvmcreate()?;
    /// store.uvm_alloc(root, 0, 4096)?;
    /// store.copy_out(root, VirtualAddress(4090), b"init")?;
    /// let mut buffer = [1; 9];
    /// assert_eq!(store.copy_in_str(root, VirtualAddress(4090), &mut buffer), Ok((4, true)));
    /// assert_eq!(&buffer[..6], b"init\x01\x01");
    /// assert_eq!(store.copy_in_str(root, VirtualAddress(4090), &mut buffer[..4]), Ok((4, false)));
    ///
    /// // without a zero the page behind this one is needed
    /// store.copy_out(root, VirtualAddress(4090), b"longer")?;
    /// assert_eq!(store.copy_in_str(root, VirtualAddress(4090), &mut buffer), Err(Refusal::NotMapped));
    /// # Ok::<(), ronakvesh::Refusal>(())
    /// ```
    pub fn copy_in_str(&self, root: u64, va: VirtualAddress, dst: &mut [u8]) -> Result<(usize, bool), Refusal> {
        let copied = archive::ronakvesh_copy_in_str(self, root, va.0, dst)? as usize;
        // the value is at most the length, and less exactly where a zero was met
        Ok((copied, copied < dst.len()))
    }

    /// Copies the pages that `size` bytes from 0 on take from a parent root to a child root: each page of the child gets the
    /// lowest free frame, upward, with the flags and the bytes of the parent's.
    ///
    /// Refuses with [`Sizes`](Refusal::Sizes), [`NotWellFormed`](Refusal::NotWellFormed), [`NoRoot`](Refusal::NoRoot) for
    /// either root, [`SameRoot`](Refusal::SameRoot), [`TooHigh`](Refusal::TooHigh), [`NotAligned`](Refusal::NotAligned); for
    /// a page of the parent with [`NotMapped`](Refusal::NotMapped) and [`NoPoolFrame`](Refusal::NoPoolFrame), for one of the
    /// child with [`MappedAlready`](Refusal::MappedAlready); [`TooFewFrames`](Refusal::TooFewFrames),
    /// [`TooFewTables`](Refusal::TooFewTables).
    ///
    /// ```
    /// # use ronakvesh::{PhysicalAddress, Refusal, Store, VirtualAddress};
    /// # let (mut words, mut tmarks, mut bytes, mut fmarks) = ([0; 512 * 6], [0; 6], [0; 4096 * 2], [0; 2]);
    /// # let mut store = Store { words: &mut words, tmarks: &mut tmarks, bytes: &mut bytes, fmarks: &mut fmarks };
    /// let (parent, child) = (store.uvmcreate()?, store.uvmcreate()?);
    /// store.uvm_init(parent, b"init")?;
    /// assert_eq!(store.uvm_copy(parent, child, 1), Err(Refusal::NotAligned));
    /// assert_eq!(store.uvm_copy(parent, child, 8192), Err(Refusal::NotMapped));
    /// assert_eq!(store.uvm_copy(parent, child, 4096), Ok(()));
    /// assert_eq!(store.pgt_translate(child, VirtualAddress(0)), Ok(PhysicalAddress(0x1_1000_1000)));
    /// assert_eq!(&store.bytes[4096..4101], b"init\0");
    /// # Ok::<(), ronakvesh::Refusal>(())
    /// ```
    pub fn uvm_copy(&mut self, parent: u64, child: u64, size: u64) -> Result<(), Refusal> {
        archive::ronakvesh_uvm_copy(self, parent, child, size).map(|_| ())
    }
}
