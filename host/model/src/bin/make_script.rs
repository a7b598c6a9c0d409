//! `make_script SEED LINES` prints a generated script;
//! `make_script SEED LINES journal` the raw journal bytes that it leaves.

use rossinhiu_model::generate::script;
use std::io::{self, Write};
use std::process::ExitCode;

fn main() -> ExitCode {
    let words: Vec<String> = std::env::args().skip(1).collect();
    let numbers: Option<(u64, usize)> = match words.as_slice() {
        [seed, lines] => seed.parse().ok().zip(lines.parse().ok()),
        [seed, lines, last] if last == "journal" => seed.parse().ok().zip(lines.parse().ok()),
        _ => None,
    };
    let Some((seed, lines)) = numbers else {
        eprintln!("expected: make_script SEED LINES [journal]");
        return ExitCode::from(2);
    };
    let script = script(seed, lines);
    let bytes = match words.len() {
        2 => script.input(),
        _ => script.left,
    };
    match io::stdout().lock().write_all(&bytes) {
        Ok(()) => ExitCode::SUCCESS,
        Err(error) => {
            eprintln!("cannot write: {error}");
            ExitCode::FAILURE
        }
    }
}
