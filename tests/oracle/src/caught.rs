//! Panics of the Rust, caught.
use std::cell::Cell;
use std::panic::{AssertUnwindSafe, catch_unwind};

thread_local! {
    /// Is something running whose panic is caught?
    static IS_QUIET: Cell<bool> = const { Cell::new(false) };
}

/// Keeps panics that are caught from being printed.
pub fn silence() {
    let print = std::panic::take_hook();
    std::panic::set_hook(Box::new(move |info| {
        if !IS_QUIET.get() {
            print(info);
        }
    }));
}

/// What `f` gives; nothing, if it panics.
pub fn caught<T>(f: impl FnOnce() -> T) -> Option<T> {
    let was_quiet = IS_QUIET.replace(true);
    let result = catch_unwind(AssertUnwindSafe(f)).ok();
    IS_QUIET.set(was_quiet);
    result
}
