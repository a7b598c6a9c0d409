//! `rossinhiu list` and `rossinhiu stretch`: a journal's records as lines, and a client's records as they are. Both go over the library's
//! listing, part by part; a line belongs to each record.

use crate::arguments::{List, Stretch};
use crate::input::{again, standard};
use crate::trouble::{say, Trouble};
use rossinhiu::bench::RECORD;
use rossinhiu::checker;
use std::collections::VecDeque;
use std::fs::File;
use std::io::{self, BufWriter, ErrorKind, IsTerminal, Read, Write};
use std::path::{Path, PathBuf};

/// Whole records read at once, and the room that their lines take with the end line.
const PART: usize = 65_536;
const TEXT: usize = PART + 64;

/// The exit numbers of a listing.
const DONE: u8 = 0;
const NOT_THERE: u8 = 1;

/// Why a listing ends before its end.
enum Stop {
    Unread(io::Error),
    Unwritten(io::Error),
}

/// Reads until the buffer is full, the input ends or a read fails.
fn read_full(source: &mut File, part: &mut [u8]) -> (usize, Option<io::Error>) {
    let mut at = 0;
    while at < part.len() {
        match again(|| source.read(&mut part[at..])) {
            Ok(0) => break,
            Ok(count) => at += count,
            Err(reason) => return (at, Some(reason)),
        }
    }
    (at, None)
}

/// Each part of the journal with its lines, to the last line. A read that fails is not the end: the journal may go on, and no end is written.
fn each_part(
    source: &mut File,
    mut take: impl FnMut(&[u8], &[u8]) -> io::Result<()>,
) -> Result<(), Stop> {
    let (mut part, mut text) = (vec![0; PART], vec![0; TEXT]);
    let mut session = checker::fresh();
    loop {
        let (count, failed) = read_full(source, &mut part);
        let is_last = failed.is_none() && count < PART;
        let (written, ended) = checker::list_part(&mut session, &part[..count], is_last, &mut text);
        take(&part[..count], &text[..written]).map_err(Stop::Unwritten)?;
        if let Some(reason) = failed {
            return Err(Stop::Unread(reason));
        }
        if ended {
            return Ok(());
        }
    }
}

fn source(file: Option<&PathBuf>) -> Result<(File, String), Trouble> {
    let Some(path) = file else {
        let input = standard(0).try_clone();
        let input =
            input.map_err(|reason| Trouble::because("standard input can't be read", &reason))?;
        return Ok((input, "standard input".to_string()));
    };
    match File::open(path) {
        Ok(file) => Ok((file, path.display().to_string())),
        Err(reason) => {
            let what = "it can't be opened to be read. Name a journal's file that you may read";
            Err(Trouble::from(path, what, &reason))
        }
    }
}

/// What is left to say at the end: why it broke off, or which record is bad.
fn ended(done: Result<(), Stop>, name: &str, bad: Option<String>) -> Result<u8, Trouble> {
    match (done, bad) {
        // Who reads no more has seen what he wanted.
        (Err(Stop::Unwritten(reason)), _) if reason.kind() == ErrorKind::BrokenPipe => Ok(DONE),
        (Err(Stop::Unwritten(reason)), _) => {
            let what = "the listing can't be written, so it breaks off. See that standard output has room";
            Err(Trouble::because(what, &reason))
        }
        (Err(Stop::Unread(reason)), _) => {
            let what = format!("{name} can't be read, so the listing breaks off, with no line 'end'. Hand in a journal's file, no folder, on a sound disk");
            Err(Trouble::because(&what, &reason))
        }
        (Ok(()), Some(record)) => Err(Trouble(format!(
            "{name}: record {record} is bad, and nothing behind it is listed. 'rossinhiu bench FILE' says what to do, and changes nothing of it"
        ))),
        (Ok(()), None) => Ok(DONE),
    }
}

/// A line's words.
fn words(line: &[u8]) -> impl Iterator<Item = &[u8]> {
    line.trim_ascii_end().split(|byte| *byte == b' ')
}

/// The number of a bad record, if that is what the line says.
fn bad_record(line: &[u8]) -> Option<String> {
    let mut words = words(line);
    let is_bad = words.next() == Some(b"bad");
    let record = words.next().filter(|_| is_bad)?;
    Some(String::from_utf8_lossy(record).into_owned())
}

/// Which lines belong to a client: from each of his openings to the next opening.
struct His {
    client: Option<u32>,
    is_his: bool,
    openings: u64,
}

impl His {
    fn new(client: Option<u32>) -> His {
        let is_his = client.is_none();
        His {
            client,
            is_his,
            openings: 0,
        }
    }

    fn takes(&mut self, line: &[u8]) -> bool {
        let Some(client) = self.client else {
            return true;
        };
        let mut words = words(line).skip(1);
        if words.next() == Some(b"open") {
            self.is_his = words.next() == Some(client.to_string().as_bytes());
            self.openings += u64::from(self.is_his);
        }
        self.is_his
    }
}

/// The lines that were asked for.
struct Wanted {
    his: His,
    last: Option<usize>,
    kept: VecDeque<Vec<u8>>,
    bad: Option<String>,
}

impl Wanted {
    fn line(&mut self, line: &[u8], out: &mut impl Write) -> io::Result<()> {
        let is_end = line.starts_with(b"end");
        self.bad = bad_record(line);
        if is_end || self.bad.is_some() {
            for kept in self.kept.drain(..) {
                out.write_all(&kept)?;
            }
            // The end line counts all records, and not the client's.
            let is_told = self.bad.is_some() || self.his.client.is_none();
            return if is_told { out.write_all(line) } else { Ok(()) };
        }
        if !self.his.takes(line) {
            return Ok(());
        }
        let Some(last) = self.last else {
            return out.write_all(line);
        };
        self.kept.push_back(line.to_vec());
        if self.kept.len() > last {
            self.kept.pop_front();
        }
        Ok(())
    }
}

pub fn list(asked: &List) -> Result<u8, Trouble> {
    let (mut from, name) = source(asked.file.as_ref())?;
    let mut wanted = Wanted {
        his: His::new(asked.client),
        last: asked.last,
        kept: VecDeque::new(),
        bad: None,
    };
    let to = standard(1);
    let mut out = BufWriter::with_capacity(TEXT, &*to);
    let done = each_part(&mut from, |_, text| {
        for line in text.split_inclusive(|byte| *byte == b'\n') {
            wanted.line(line, &mut out)?;
        }
        out.flush()
    });
    ended(done, &name, wanted.bad)
}

/// A client's records as they stand in the journal, to standard output.
pub fn stretch(asked: &Stretch) -> Result<u8, Trouble> {
    if io::stdout().is_terminal() {
        say("stretch: the records are no text. Send them to a file: rossinhiu stretch FILE --client N > STRETCH");
        return Ok(crate::WRONG);
    }
    let (mut from, name) = source(Some(&asked.file))?;
    let (mut his, mut bad) = (His::new(Some(asked.client)), None);
    let to = standard(1);
    let mut out = BufWriter::with_capacity(PART, &*to);
    let done = each_part(&mut from, |part, text| {
        let lines = text.split_inclusive(|byte| *byte == b'\n');
        bad = lines.clone().next_back().and_then(bad_record);
        for (record, line) in part.chunks_exact(RECORD).zip(lines) {
            if bad_record(line).is_none() && his.takes(line) {
                out.write_all(record)?;
            }
        }
        out.flush()
    });
    ended_stretch(done, &name, bad)?;
    told(&asked.file, asked.client, his.openings)
}

/// Unlike a listing, a stretch that its reader broke off is no whole one.
fn ended_stretch(done: Result<(), Stop>, name: &str, bad: Option<String>) -> Result<u8, Trouble> {
    if let Err(Stop::Unwritten(reason)) = &done {
        let what = "the records can't be written, so they are not all there. See that standard output has room";
        return Err(Trouble::because(what, reason));
    }
    ended(done, name, bad)
}

fn told(file: &Path, client: u32, openings: u64) -> Result<u8, Trouble> {
    if openings == 0 {
        let name = file.display();
        say(&format!("{name}: client {client} has no record in it. 'rossinhiu list {name} | grep open' shows who has"));
        return Ok(NOT_THERE);
    }
    if openings > 1 {
        say(&format!("client {client} has {openings} openings; the records of all of them are written, in their order"));
    }
    Ok(DONE)
}
