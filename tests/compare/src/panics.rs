//! The source's panics: it is made to panic often, and they are caught and not printed.

use std::panic::{self, catch_unwind, AssertUnwindSafe};
use std::sync::atomic::{AtomicBool, Ordering};
use std::sync::Once;

/// Whether the source is being asked.
static ASKED: AtomicBool = AtomicBool::new(false);

static HUSHED: Once = Once::new();

/// What the source comes to, or nothing if it panics.
pub fn caught<T>(ask: impl FnOnce() -> T) -> Option<T> {
    HUSHED.call_once(|| {
        let hook = panic::take_hook();
        panic::set_hook(Box::new(move |info| {
            if !ASKED.load(Ordering::Relaxed) {
                hook(info);
            }
        }));
    });
    ASKED.store(true, Ordering::Relaxed);
    let answer = catch_unwind(AssertUnwindSafe(ask)).ok();
    ASKED.store(false, Ordering::Relaxed);
    answer
}
