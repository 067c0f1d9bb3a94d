//! The C library on the same memory: memcpy, a frame at a time, over the frames that the pages of root 0 have, from frame 0 on;
//! memccpy, which stops at a zero, instead for a text; memset for a set-up. None has an answer that is compared.

use super::held::Held;
use crate::archive::Numbers;
use kernel::window::PAGE;
use std::ffi::{c_int, c_void};
use std::hint::black_box;

unsafe extern "C" {
    fn memccpy(to: *mut c_void, from: *const c_void, end: c_int, length: usize) -> *mut c_void;
}

/// The first bytes of a frame, whose number the compiler does not foresee.
fn part(bytes: &mut [u8], frame: usize, length: usize) -> &mut [u8] {
    &mut bytes[PAGE * black_box(frame)..][..length]
}

/// From the frames to the buffer.
pub fn copy_in(held: &mut Held, _: Numbers) -> Option<u64> {
    let (bytes, buffer) = held.bytes_and_buffer();
    for (frame, to) in buffer.chunks_mut(PAGE).enumerate() {
        to.copy_from_slice(part(bytes, frame, to.len()));
    }
    None
}

/// From the buffer to the frames.
pub fn copy_out(held: &mut Held, _: Numbers) -> Option<u64> {
    let (bytes, buffer) = held.bytes_and_buffer();
    for (frame, from) in buffer.chunks(PAGE).enumerate() {
        part(bytes, frame, from.len()).copy_from_slice(from);
    }
    None
}

/// From the frames to the buffer, up to a zero.
pub fn copy_in_str(held: &mut Held, _: Numbers) -> Option<u64> {
    let (bytes, buffer) = held.bytes_and_buffer();
    for (frame, to) in buffer.chunks_mut(PAGE).enumerate() {
        let from = part(bytes, frame, to.len());
        // SAFETY: both parts have this length, and do not overlap.
        let end = unsafe { memccpy(to.as_mut_ptr().cast(), from.as_ptr().cast(), 0, to.len()) };
        if !end.is_null() {
            break;
        }
    }
    None
}

/// From the frames of so many bytes to as many behind them, which are the lowest free ones.
pub fn uvm_copy(held: &mut Held, [_, _, size, ..]: Numbers) -> Option<u64> {
    let (from, to) = held.bytes_mut().split_at_mut(size as usize);
    for frame in 0..size as usize / PAGE {
        part(to, frame, PAGE).copy_from_slice(part(from, frame, PAGE));
    }
    None
}

/// Zeros in all four slices.
pub fn set_up(held: &mut Held, _: Numbers) -> Option<u64> {
    held.words_mut().fill(0);
    held.table_marks.fill(0);
    held.bytes_mut().fill(0);
    held.frame_marks.fill(0);
    None
}
