//! The reference returns on its domain and panics outside it; a comparison wants to know which.

use std::panic::{self, AssertUnwindSafe};

/// What the call returns, or nothing where it panics. What was lent to it is left as it then stood.
pub fn returned<T>(call: impl FnOnce() -> T) -> Option<T> {
    let told = panic::take_hook();
    panic::set_hook(Box::new(|_| {}));
    let outcome = panic::catch_unwind(AssertUnwindSafe(call)).ok();
    panic::set_hook(told);
    outcome
}
