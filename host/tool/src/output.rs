//! Answers gathered, and written together.

use crate::input::standard;
use crate::trouble::Trouble;
use std::fs::File;
use std::io::Write;
use std::mem::ManuallyDrop;

/// Answers are written once so many bytes are gathered.
const MOST: usize = 49_152;
/// Journal bytes shown at once.
const PIECE: usize = 4_096;

pub struct Output {
    to: ManuallyDrop<File>,
    gathered: Vec<u8>,
}

impl Output {
    pub fn new() -> Output {
        Output {
            to: standard(1),
            gathered: Vec::with_capacity(MOST + 4 * PIECE),
        }
    }

    /// What could not be written is gone: it is not tried again.
    pub fn flush(&mut self) -> Result<(), Trouble> {
        let written = self.to.write_all(&self.gathered);
        self.gathered.clear();
        written.map_err(|reason| {
            let what =
                "the answers can't be written, so it ends here. See that standard output has room";
            Trouble::because(what, &reason)
        })
    }

    fn make_room(&mut self) -> Result<(), Trouble> {
        if self.gathered.len() < MOST {
            return Ok(());
        }
        self.flush()
    }

    /// A line's number, before its answer.
    pub fn number(&mut self, number: u64) {
        self.gathered
            .extend_from_slice(format!("{number} ").as_bytes());
    }

    /// An answer's text, and behind it bytes as lower-case hexadecimal.
    pub fn answer(&mut self, text: &[u8], shown: &[u8]) -> Result<(), Trouble> {
        self.gathered.extend_from_slice(text);
        for piece in shown.chunks(PIECE) {
            self.make_room()?;
            for byte in piece {
                let digit = |half: u8| b"0123456789abcdef"[usize::from(half)];
                self.gathered.extend([digit(byte >> 4), digit(byte & 15)]);
            }
        }
        self.gathered.push(b'\n');
        self.make_room()
    }
}
