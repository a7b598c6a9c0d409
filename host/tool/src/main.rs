//! `rossinhiu`: the work of a day in a laboratory, over the proved library. It reads, writes, syncs and locks; what a line of a trace means
//! and what a record says is the library's.

mod arguments;
mod bench;
mod descriptors;
mod help;
mod input;
mod journal;
mod listing;
mod output;
mod progress;
mod tally;
mod trouble;

use arguments::Asked;
use std::process::ExitCode;
use trouble::{say, Trouble};

/// Wrong arguments.
const WRONG: u8 = 2;
/// A file or a disk.
const TROUBLE: u8 = 3;

fn perform(asked: Asked) -> Result<u8, Trouble> {
    match asked {
        Asked::Page(page) => help::print(page),
        Asked::Bench(words) => bench::run(&words),
        Asked::List(words) => listing::list(&words),
        Asked::Stretch(words) => listing::stretch(&words),
    }
}

fn main() -> ExitCode {
    let words = std::env::args_os().skip(1);
    let asked = match arguments::read(words) {
        Ok(asked) => asked,
        Err(wrong) => {
            say(&wrong);
            return ExitCode::from(WRONG);
        }
    };
    match perform(asked) {
        Ok(number) => ExitCode::from(number),
        Err(trouble) => {
            say(&trouble.0);
            ExitCode::from(TROUBLE)
        }
    }
}
