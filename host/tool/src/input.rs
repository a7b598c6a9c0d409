//! Bytes read so that a failed read is told from the end. A read that a signal interrupts is made again.

use crate::trouble::Trouble;
use std::fs::File;
use std::io::{self, ErrorKind, Read};
use std::mem::ManuallyDrop;
use std::os::fd::FromRawFd;

/// The longest line is 4,096 bytes. Of a longer one a byte more is kept, and it stays too long.
const MOST_KEPT: usize = 4_097;
const READ: usize = 65_536;

/// A standard stream as it is, with nothing gathered in between.
pub fn standard(descriptor: i32) -> ManuallyDrop<File> {
    // SAFETY: the three are open to the end of the program, and this one is not closed by its drop.
    ManuallyDrop::new(unsafe { File::from_raw_fd(descriptor) })
}

/// One read, made again where a signal came.
pub fn again(mut read: impl FnMut() -> io::Result<usize>) -> io::Result<usize> {
    loop {
        match read() {
            Err(error) if error.kind() == ErrorKind::Interrupted => {}
            done => return done,
        }
    }
}

/// Standard input in lines.
pub struct Lines {
    source: ManuallyDrop<File>,
    bytes: Vec<u8>,
    /// What was read and not yet handed out.
    start: usize,
    end: usize,
    /// Bytes read in all, and those of the file that standard input is, if it is one.
    pub came: u64,
    pub size: Option<u64>,
}

impl Lines {
    pub fn new() -> Lines {
        let source = standard(0);
        let about = source.metadata().ok().filter(|m| m.is_file());
        Lines {
            source,
            bytes: vec![0; READ + MOST_KEPT],
            start: 0,
            end: 0,
            came: 0,
            size: about.map(|m| m.len()),
        }
    }

    /// One read of what is there, behind the line under way. False at the end of the input.
    pub fn more(&mut self) -> Result<bool, Trouble> {
        self.keep();
        let to = &mut self.bytes[self.end..];
        let came = again(|| self.source.read(to)).map_err(|reason| {
            let what = "standard input can't be read, so it ends here. Send the trace again from the first line that has no answer";
            Trouble::because(what, &reason)
        })?;
        self.end += came;
        self.came += came as u64;
        Ok(came > 0)
    }

    /// The line under way goes to the front.
    fn keep(&mut self) {
        let kept = (self.end - self.start).min(MOST_KEPT);
        self.bytes.copy_within(self.start..self.start + kept, 0);
        (self.start, self.end) = (0, kept);
    }

    /// The next line that a newline ended.
    pub fn next(&mut self) -> Option<&[u8]> {
        let left = &self.bytes[self.start..self.end];
        let length = left.iter().position(|byte| *byte == b'\n')?;
        self.start += length + 1;
        Some(&left[..length])
    }

    /// What stands behind the last newline.
    pub fn rest(&self) -> &[u8] {
        &self.bytes[self.start..self.end]
    }
}
