//! Standard descriptors that are closed. Rust's runtime opens them on nothing before `main`, so that answers would be lost without a word:
//! whether one was closed is asked before that.

use std::sync::atomic::{AtomicBool, Ordering};

const F_GETFD: i32 = 1;

extern "C" {
    fn fcntl(descriptor: i32, command: i32, ...) -> i32;
}

static CLOSED: AtomicBool = AtomicBool::new(false);

extern "C" fn look() {
    for descriptor in 0..3 {
        // SAFETY: it asks for a number's flags and touches no memory.
        if unsafe { fcntl(descriptor, F_GETFD) } < 0 {
            CLOSED.store(true, Ordering::Relaxed);
        }
    }
}

#[used]
#[link_section = ".init_array"]
static LOOK: extern "C" fn() = look;

/// Whether standard input, output or error was closed at the start.
pub fn is_one_closed() -> bool {
    CLOSED.load(Ordering::Relaxed)
}
