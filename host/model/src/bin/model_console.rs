//! Standard input to standard output: the console by the model. With an
//! argument the journal is kept in that file.

use rossinhiu_model::console::{Console, JOURNAL};
use rossinhiu_model::file::{FileConsole, Put, Start};
use rossinhiu_model::model::RECORD;
use std::fs::{File, OpenOptions};
use std::io::{self, BufRead, ErrorKind, Write};
use std::os::unix::fs::FileExt;
use std::path::Path;

fn main() -> io::Result<()> {
    match std::env::args_os().nth(1) {
        None => play_memory(),
        Some(path) => play_file(Path::new(&path)),
    }
}

fn told<T>(what: &str, done: io::Result<T>) -> io::Result<T> {
    done.map_err(|error| io::Error::other(format!("{what}: {error}")))
}

/// The next line, its newline with it. What came of a line before a failed read is dropped.
fn next_line(input: &mut impl BufRead) -> io::Result<Option<Vec<u8>>> {
    let mut line = Vec::new();
    let read = input.read_until(b'\n', &mut line);
    let count = told("standard input can't be read", read)?;
    Ok((count > 0).then_some(line))
}

fn play_memory() -> io::Result<()> {
    let mut console = Console::new();
    let mut input = io::stdin().lock();
    let mut output = io::stdout().lock();
    while let Some(line) = next_line(&mut input)? {
        output.write_all(&console.feed(&line))?;
        output.flush()?;
    }
    output.write_all(&console.finish())?;
    output.flush()
}

fn read_all(file: &File) -> io::Result<Vec<u8>> {
    let mut bytes = Vec::new();
    let mut piece = vec![0; 65_536];
    loop {
        match file.read_at(&mut piece, bytes.len() as u64) {
            Ok(0) => return Ok(bytes),
            Ok(count) => bytes.extend_from_slice(&piece[..count]),
            Err(error) if error.kind() == ErrorKind::Interrupted => {}
            Err(error) => return Err(error),
        }
    }
}

/// What a restore shows is on the disk, the file's name too.
fn make_durable(file: &File, path: &Path) -> io::Result<()> {
    told("the file can't be made durable", file.sync_data())?;
    let folder = path.parent().filter(|f| !f.as_os_str().is_empty());
    let folder = File::open(folder.unwrap_or(Path::new(".")));
    let synced = folder.and_then(|folder| folder.sync_all());
    told("the folder can't be made durable", synced)
}

fn play_file(path: &Path) -> io::Result<()> {
    let mut options = OpenOptions::new();
    let options = options.read(true).write(true).create(true).truncate(false);
    let file = options.open(path)?;
    let start = FileConsole::start(&read_all(&file)?);
    match start {
        Start::TooLong => eprintln!("it is longer than {JOURNAL} bytes: name another file"),
        Start::NoJournal => eprintln!("it is no journal: name another file"),
        Start::Refused(line, at) => {
            make_durable(&file, path)?;
            println!("{line}");
            let end = RECORD * at;
            eprintln!("record {at} is bad; without an answer 0 for it, it is safe to cut the file: cut it to {end} bytes");
        }
        Start::Open(line, console) => {
            make_durable(&file, path)?;
            println!("{line}");
            play_lines(&file, console)?;
        }
    }
    Ok(())
}

fn play_lines(file: &File, mut console: FileConsole) -> io::Result<()> {
    let mut input = io::stdin().lock();
    while let Some(line) = next_line(&mut input)? {
        let front = line.strip_suffix(b"\n");
        let (answer, put) = console.line(front.unwrap_or(&line), front.is_some());
        // A sector is begun when the one before it is durable, so that no power cut leaves a hole.
        for part in put.iter().flat_map(Put::parts) {
            let written = file.write_at(&part.bytes, part.at as u64);
            if told("a record can't be written: make room", written)? != part.bytes.len() {
                eprintln!("a record was written in part: make room");
                return Ok(());
            }
            told("copy the file, start with the copy", file.sync_data())?;
        }
        if let Some(answer) = answer {
            println!("{answer}");
        }
    }
    Ok(())
}
