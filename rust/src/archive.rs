//! What libinterface.a exports for a store, as safe functions, and its replies.

use crate::{Refusal, Store};

/// Number 0 and the value, or a refusal's number and value 0.
#[repr(C)]
struct Reply {
    number: u64,
    value: u64,
}

impl Reply {
    /// The value, or the refusal.
    ///
    /// The calls are proved to give no number but those of document 01. Another number shows that the archive is not the
    /// proved one, so nothing is known of the store either: that is a panic, since a caller who gets a refusal goes on,
    /// in the belief that no byte has changed.
    fn result(self) -> Result<u64, Refusal> {
        match (self.number, Refusal::from_number(self.number)) {
            (0, _) => Ok(self.value),
            (_, Some(refusal)) => Err(refusal),
            (number, None) => unreachable!("libinterface.a gave {number}, which is no number of document 01"),
        }
    }
}

/// The reference by which a call borrows what it is lent: for writing, unless all parts of it are `const`.
macro_rules! borrowed {
    ($lent:ty: $(const)*) => {
        &$lent
    };
    ($lent:ty: $($part:tt)*) => {
        &mut $lent
    };
}

/// A pointer to the first element of a borrowed slice.
macro_rules! pointer {
    (mut $slice:expr) => {
        $slice.as_mut_ptr()
    };
    (const $slice:expr) => {
        $slice.as_ptr()
    };
}

/// Makes a function of each export, a row an export: whether it may write to the words, tmarks, bytes and fmarks of the
/// store (`mut`) or reads them alone (`const`), its name, its numbers and, after a `;`, the buffer that it takes. A lent
/// slice goes to it as a pointer to the first element, then how many elements there are.
macro_rules! exports {
    ($(
        $words:tt $tmarks:tt $bytes:tt $fmarks:tt
        $export:ident($($number:ident: $kind:ty),* $(; $part:tt $buffer:ident)?);
    )*) => {
        $(pub fn $export(
            store: borrowed!(Store<'_>: $words $tmarks $bytes $fmarks),
            $($number: $kind,)*
            $($buffer: borrowed!([u8]: $part),)?
        ) -> Result<u64, Refusal> {
            extern "C" {
                fn $export(
                    words: *$words u64,
                    words_length: usize,
                    tmarks: *$tmarks u32,
                    tmarks_length: usize,
                    bytes: *$bytes u8,
                    bytes_length: usize,
                    fmarks: *$fmarks u32,
                    fmarks_length: usize,
                    $($number: $kind,)*
                    $($buffer: *$part u8, buffer_length: usize,)?
                ) -> Reply;
            }
            // SAFETY: the pointers and lengths are those of slices that are borrowed for the call. So they are aligned, not
            // null and apart, and the compiler gives a `*mut` only to what is borrowed for writing: that is all that the
            // archive asks of a caller.
            let reply = unsafe {
                $export(
                    pointer!($words store.words),
                    store.words.len(),
                    pointer!($tmarks store.tmarks),
                    store.tmarks.len(),
                    pointer!($bytes store.bytes),
                    store.bytes.len(),
                    pointer!($fmarks store.fmarks),
                    store.fmarks.len(),
                    $($number,)*
                    $(pointer!($part $buffer), $buffer.len(),)?
                )
            };
            reply.result()
        })*
    };
}

#[link(name = "interface", kind = "static")]
extern "C" {}

exports! {
    // words, tmarks, bytes, fmarks
    mut   mut   mut   mut   ronakvesh_set_up();
    const const const const ronakvesh_check();
    const mut   const const ronakvesh_uvmcreate();
    mut   mut   const const ronakvesh_map(root: u64, va: u64, pa: u64, size: u64, perm: u64);
    mut   const const mut   ronakvesh_uvm_unmap(root: u64, va: u64, pages: u64, freeing: bool);
    mut   const const const ronakvesh_uvm_clear(root: u64, va: u64);
    mut   mut   mut   mut   ronakvesh_uvm_init(root: u64; const src);
    mut   mut   mut   mut   ronakvesh_uvm_alloc(root: u64, old: u64, new: u64);
    mut   const const mut   ronakvesh_uvm_dealloc(root: u64, old: u64, new: u64);
    const const const const ronakvesh_copy_in(root: u64, va: u64; mut dst);
    const const mut   const ronakvesh_copy_out(root: u64, va: u64; const src);
    const const const const ronakvesh_copy_in_str(root: u64, va: u64; mut dst);
    mut   mut   mut   mut   ronakvesh_uvm_copy(parent: u64, child: u64, size: u64);
    mut   mut   const const ronakvesh_free(root: u64);
    mut   mut   const mut   ronakvesh_uvm_free(root: u64, size: u64);
    mut   mut   const mut   ronakvesh_free_shared_user_pagetable(root: u64, size: u64);
    mut   mut   const mut   ronakvesh_proc_free_pagetable(root: u64, size: u64);
    const const const const ronakvesh_pgt_translate(root: u64, va: u64);
    const const const const ronakvesh_as_satp(root: u64);
}

#[cfg(test)]
mod tests {
    use super::Reply;

    #[test]
    #[should_panic(expected = "no number of document 01")]
    fn a_number_that_no_call_gives() {
        let _ = Reply { number: 19, value: 0 }.result();
    }
}
