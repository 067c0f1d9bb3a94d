//! The two kinds of address.

/// A virtual address: what a program names. It cannot stand where a physical address is asked for:
///
/// ```compile_fail,E0308
/// let pa: ronakvesh::PhysicalAddress = ronakvesh::VirtualAddress(0x1000);
/// ```
#[derive(Clone, Copy, Debug, PartialEq, Eq, PartialOrd, Ord, Hash)]
pub struct VirtualAddress(pub u64);

/// A physical address: where memory answers. It cannot stand where a virtual address is asked for:
///
/// ```compile_fail,E0308
/// let va: ronakvesh::VirtualAddress = ronakvesh::PhysicalAddress(0x1000);
/// ```
#[derive(Clone, Copy, Debug, PartialEq, Eq, PartialOrd, Ord, Hash)]
pub struct PhysicalAddress(pub u64);
