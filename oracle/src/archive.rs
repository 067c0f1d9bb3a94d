//! The proved functions, as libinterface.a exports them. The helpers take numbers only, so every call of them is safe.

/// Number 0 and the value, or a refusal's number and value 0.
#[repr(C)]
#[derive(PartialEq, Eq)]
pub struct Reply {
    pub number: u64,
    pub value: u64,
}

/// C's `_Bool`, read as its byte, so that a byte other than 0 and 1 is noticed.
#[repr(transparent)]
pub struct Truth(pub u8);

/// The pages from the first up to, not including, the end.
#[repr(C)]
pub struct PageRange {
    pub first: u64,
    pub end: u64,
}

#[link(name = "interface", kind = "static")]
unsafe extern "C" {
    pub safe fn ronakvesh_virtual_new(address: u64) -> u64;
    pub safe fn ronakvesh_virtual_is_page_aligned(va: u64) -> Truth;
    pub safe fn ronakvesh_virtual_pg_round_up(va: u64) -> Reply;
    pub safe fn ronakvesh_virtual_pg_round_down(va: u64) -> u64;
    pub safe fn ronakvesh_virtual_add_page(va: u64) -> Reply;
    pub safe fn ronakvesh_virtual_compare(first: u64, second: u64) -> Truth;
    pub safe fn ronakvesh_virtual_equal(first: u64, second: u64) -> Truth;
    pub safe fn ronakvesh_virtual_add_addr(va: u64, number: u64) -> Reply;
    pub safe fn ronakvesh_virtual_page_num(va: u64, level: u64) -> Reply;
    pub safe fn ronakvesh_virtual_add(first: u64, second: u64) -> Reply;
    pub safe fn ronakvesh_virtual_sub(first: u64, second: u64) -> Reply;
    pub safe fn ronakvesh_physical_new(address: u64) -> u64;
    pub safe fn ronakvesh_physical_is_page_aligned(pa: u64) -> Truth;
    pub safe fn ronakvesh_physical_pg_round_up(pa: u64) -> Reply;
    pub safe fn ronakvesh_physical_pg_round_down(pa: u64) -> u64;
    pub safe fn ronakvesh_physical_add_page(pa: u64) -> Reply;
    pub safe fn ronakvesh_physical_add_addr(pa: u64, number: u64) -> Reply;

    pub safe fn ronakvesh_page_round_up(address: u64) -> Reply;
    pub safe fn ronakvesh_page_round_down(address: u64) -> u64;
    pub safe fn ronakvesh_page_range(va: u64, size: u64) -> PageRange;

    pub safe fn ronakvesh_entry_new(word: u64) -> u64;
    pub safe fn ronakvesh_entry_is_valid(entry: u64) -> Truth;
    pub safe fn ronakvesh_entry_is_user(entry: u64) -> Truth;
    pub safe fn ronakvesh_entry_is_read(entry: u64) -> Truth;
    pub safe fn ronakvesh_entry_is_write(entry: u64) -> Truth;
    pub safe fn ronakvesh_entry_is_execute(entry: u64) -> Truth;
    pub safe fn ronakvesh_entry_is_leaf(entry: u64) -> Truth;
    pub safe fn ronakvesh_entry_add_valid_bit(entry: u64) -> u64;
    pub safe fn ronakvesh_entry_add_user_bit(entry: u64) -> u64;
    pub safe fn ronakvesh_entry_rm_user_bit(entry: u64) -> u64;
    pub safe fn ronakvesh_entry_as_pagetable(entry: u64) -> u64;
    pub safe fn ronakvesh_entry_as_pte(pa: u64) -> Reply;
    pub safe fn ronakvesh_entry_as_flags(entry: u64) -> u64;
    pub safe fn ronakvesh_entry_write_zero() -> u64;
    pub safe fn ronakvesh_entry_write_perm(pa: u64, permissions: u64) -> Reply;
}

/// The numbers that a call is made with. Those that it does not have are 0 and not looked at.
pub type Numbers = [u64; 5];

/// For a call that has no numbers.
pub const NO_NUMBERS: Numbers = [0; 5];

/// The four slices of a store, as they are lent to a call, and the kernel's buffer, empty where the call has none.
#[derive(Clone, Copy)]
pub struct Slices {
    pub words: *mut [u64],
    pub table_marks: *mut [u32],
    pub bytes: *mut [u8],
    pub frame_marks: *mut [u32],
    pub buffer: *mut [u8],
}

/// The type in which a number is handed to a call: `u64`, or the one that is named.
macro_rules! type_of {
    () => {
        u64
    };
    ($kind:ident) => {
        $kind
    };
}

/// A number as it is handed to a call.
macro_rules! handed {
    ($number:ident) => {
        $number
    };
    ($number:ident bool) => {
        $number != 0
    };
}

/// Declares calls, each by the name that it has here, its own name and the names of its numbers; `name: bool` is handed
/// over as whether it is other than 0. Where the call has a buffer, its name comes last, after a `;`. A lent slice goes
/// to the call as a pointer to the first element, then how many elements there are. In the archive the names of the calls
/// have the text before them.
///
/// # Safety of each
/// The slices are there and do not overlap, and those that the call writes to may be written.
macro_rules! calls {
    ($before:literal $($name:ident = $export:ident($($number:ident $(: $kind:ident)?),* $(; $buffer:ident)?);)*) => {
        unsafe extern "C" {
            $(#[link_name = concat!($before, stringify!($export))]
            fn $export(
                words: *mut u64,
                words_length: usize,
                table_marks: *mut u32,
                table_marks_length: usize,
                bytes: *mut u8,
                bytes_length: usize,
                frame_marks: *mut u32,
                frame_marks_length: usize,
                $($number: type_of!($($kind)?),)*
                $($buffer: *mut u8, buffer_length: usize,)?
            ) -> Reply;)*
        }

        $(pub unsafe fn $name(slices: Slices, [$($number,)* ..]: Numbers) -> Reply {
            let Slices { words, table_marks, bytes, frame_marks, .. } = slices;
            $(let $buffer = slices.buffer;)?
            // SAFETY: as above; each pointer goes with the length of its slice.
            unsafe {
                $export(
                    words.cast(),
                    words.len(),
                    table_marks.cast(),
                    table_marks.len(),
                    bytes.cast(),
                    bytes.len(),
                    frame_marks.cast(),
                    frame_marks.len(),
                    $(handed!($number $($kind)?),)*
                    $($buffer.cast(), $buffer.len(),)?
                )
            }
        })*
    };
}

/// Declares every call, with this text before its name in the archive.
macro_rules! every_call {
    ($before:literal) => {
        calls! {
            $before
            set_up = ronakvesh_set_up();
            check = ronakvesh_check();
            pgt_translate = ronakvesh_pgt_translate(root, va);
            as_satp = ronakvesh_as_satp(root);
            uvmcreate = ronakvesh_uvmcreate();
            map = ronakvesh_map(root, va, pa, size, permissions);
            uvm_unmap = ronakvesh_uvm_unmap(root, va, pages, freeing: bool);
            uvm_clear = ronakvesh_uvm_clear(root, va);
            uvm_init = ronakvesh_uvm_init(root; src);
            uvm_alloc = ronakvesh_uvm_alloc(root, old, new);
            uvm_dealloc = ronakvesh_uvm_dealloc(root, old, new);
            copy_in = ronakvesh_copy_in(root, va; dst);
            copy_out = ronakvesh_copy_out(root, va; src);
            copy_in_str = ronakvesh_copy_in_str(root, va; dst);
            uvm_copy = ronakvesh_uvm_copy(parent, child, size);
            free = ronakvesh_free(root);
            uvm_free = ronakvesh_uvm_free(root, size);
            free_shared_user_pagetable = ronakvesh_free_shared_user_pagetable(root, size);
            proc_free_pagetable = ronakvesh_proc_free_pagetable(root, size);
        }
    };
}

every_call!("");
