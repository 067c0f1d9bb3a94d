//! The Rust's panics, which are answers.

use crate::answer::Answer;
use std::cell::Cell;
use std::panic::{catch_unwind, set_hook, take_hook, AssertUnwindSafe};

thread_local! {
    /// Whether the Rust is being run, so that a panic is an answer.
    static IN_THE_RUST: Cell<bool> = const { Cell::new(false) };
}

/// Keeps the Rust's panics off the screen; other panics are shown as ever.
pub fn quiet_panics() {
    let shown = take_hook();
    set_hook(Box::new(move |panic| {
        if !IN_THE_RUST.get() {
            shown(panic);
        }
    }));
}

/// What the Rust answers, a panic included.
pub fn caught(rust: impl FnMut() -> Answer) -> Answer {
    IN_THE_RUST.set(true);
    let answer = catch_unwind(AssertUnwindSafe(rust)).unwrap_or(Answer::Panicked);
    IN_THE_RUST.set(false);
    answer
}
