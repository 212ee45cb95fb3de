//! Panics of the Rust, caught and turned into answers.

use std::cell::Cell;
use std::panic::{catch_unwind, set_hook, take_hook, AssertUnwindSafe};

thread_local!(static CATCHING: Cell<bool> = const { Cell::new(false) });

/// Silences the panics that are caught; any other is told as before.
pub fn prepare() {
    let told = take_hook();
    set_hook(Box::new(move |panic| {
        if !CATCHING.get() {
            told(panic);
        }
    }));
}

/// The answer, or what the panic says.
pub fn caught<T>(asked: impl FnOnce() -> T) -> Result<T, String> {
    let outer = CATCHING.replace(true);
    let answer = catch_unwind(AssertUnwindSafe(asked));
    CATCHING.set(outer);
    answer.map_err(|payload| match payload.downcast::<String>() {
        Ok(text) => *text,
        Err(payload) => payload.downcast_ref::<&str>().unwrap_or(&"").to_string(),
    })
}
