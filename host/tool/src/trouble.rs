//! What goes to standard error.

use std::io::{self, Write};
use std::path::Path;

/// A file, a disk or a stream: what is wrong and what to do, in one line. The work ends with exit number 3.
pub struct Trouble(pub String);

impl Trouble {
    /// Behind the file's name.
    pub fn of(path: &Path, what: &str) -> Trouble {
        Trouble(format!("{}: {what}", path.display()))
    }

    /// With the reason that the system gives.
    pub fn from(path: &Path, what: &str, reason: &io::Error) -> Trouble {
        Trouble(format!("{}: {what}: {reason}", path.display()))
    }

    pub fn because(what: &str, reason: &io::Error) -> Trouble {
        Trouble(format!("{what}: {reason}"))
    }
}

/// One line, in one write. Where standard error can't be written there is nobody to tell.
pub fn say(line: &str) {
    let _ = io::stderr().write_all(format!("rossinhiu: {line}\n").as_bytes());
}
