//! Standard input to standard output: the listing by the model.

use rossinhiu_model::listing::{list, list_broken};
use std::io::{self, ErrorKind, Read, Write};

fn main() -> io::Result<()> {
    let mut bytes = Vec::new();
    let lines = match read_all(&mut bytes) {
        Ok(()) => list(&bytes),
        Err(error) => {
            eprintln!("standard input can't be read: {error}");
            list_broken(&bytes)
        }
    };
    io::stdout().lock().write_all(&lines)
}

/// Puts all that comes behind the bytes; what came before a failed read stays.
fn read_all(bytes: &mut Vec<u8>) -> io::Result<()> {
    let mut piece = vec![0; 65_536];
    loop {
        match io::stdin().lock().read(&mut piece) {
            Ok(0) => return Ok(()),
            Ok(count) => bytes.extend_from_slice(&piece[..count]),
            Err(error) if error.kind() == ErrorKind::Interrupted => {}
            Err(error) => return Err(error),
        }
    }
}
