//! Ctrl-C: the first one asks for an end between two runs, the second ends the program at once.

use std::sync::atomic::{AtomicBool, Ordering};

const SIGINT: i32 = 2;
const SIG_DFL: usize = 0;
const SIG_IGN: usize = 1;
/// What a shell says of a program that Ctrl-C ended.
pub const STATUS: u8 = 130;

static INTERRUPTED: AtomicBool = AtomicBool::new(false);

unsafe extern "C" {
    fn signal(number: i32, handler: usize) -> usize;
}

extern "C" fn note(_: i32) {
    INTERRUPTED.store(true, Ordering::Relaxed);
    // SAFETY: `signal` may be called from a handler.
    unsafe { signal(SIGINT, SIG_DFL) };
}

/// From now on Ctrl-C is noted, unless it is ignored.
pub fn watch() {
    // SAFETY: the handler stores to an atomic and calls `signal`, as a handler may.
    unsafe {
        if signal(SIGINT, note as *const () as usize) == SIG_IGN {
            signal(SIGINT, SIG_IGN);
        }
    }
}

pub fn noted() -> bool {
    INTERRUPTED.load(Ordering::Relaxed)
}
