//! How far long work is: on standard error, if it is a terminal, in one line that is written again and wiped off at the end.

use std::io::{self, IsTerminal, Write};
use std::sync::mpsc::{self, RecvTimeoutError};
use std::thread;
use std::time::{Duration, Instant};

/// Work that is done sooner shows nothing; a line stands so long before the next.
const PATIENCE: Duration = Duration::from_millis(500);

pub struct Progress {
    is_shown: bool,
    next: Instant,
    is_dirty: bool,
}

fn put(text: &str) {
    // Back to the line's start, wipe it, and stay on it.
    let _ = io::stderr().write_all(format!("\r\x1b[K{text}").as_bytes());
}

impl Progress {
    /// Shown on a terminal, unless answers are printed to one at the same time.
    pub fn new(beside_answers: bool) -> Progress {
        let is_shown =
            io::stderr().is_terminal() && !(beside_answers && io::stdout().is_terminal());
        Progress {
            is_shown,
            next: Instant::now() + PATIENCE,
            is_dirty: false,
        }
    }

    pub fn is_shown(&self) -> bool {
        self.is_shown
    }

    /// So many of so many bytes.
    pub fn show(&mut self, what: &str, done: u64, all: u64) {
        if !self.is_shown || Instant::now() < self.next {
            return;
        }
        self.next = Instant::now() + PATIENCE;
        self.is_dirty = true;
        let percent = (100 * u128::from(done) / u128::from(all.max(1))).min(100);
        put(&format!("{what}: {percent} % of {} MiB", all >> 20));
    }

    /// Work that can't be looked into: how long it has taken, of about so long.
    pub fn during<T>(&self, what: &str, about: Duration, work: impl FnOnce() -> T) -> T {
        if !self.is_shown || about < PATIENCE {
            return work();
        }
        let (done, wait) = mpsc::channel::<()>();
        thread::scope(|scope| {
            scope.spawn(move || {
                let begun = Instant::now();
                while wait.recv_timeout(PATIENCE) == Err(RecvTimeoutError::Timeout) {
                    let (so_far, all) = (begun.elapsed().as_secs(), about.as_secs().max(1));
                    put(&format!("{what}: {so_far} of about {all} seconds"));
                }
                put("");
            });
            let came = work();
            drop(done);
            came
        })
    }
}

/// However the work ends, what comes next begins on a line of its own.
impl Drop for Progress {
    fn drop(&mut self) {
        if self.is_dirty {
            put("");
        }
    }
}
