//! `rossinhiu bench`: a trace played line by line, and the answers written before each read that could wait.

use crate::arguments;
use crate::descriptors::is_one_closed;
use crate::input::Lines;
use crate::journal;
use crate::output::Output;
use crate::progress::Progress;
use crate::tally::Tally;
use crate::trouble::{say, Trouble};
use rossinhiu::bench::RECORD;
use rossinhiu::checker::{self, Console};
use rossinhiu::ffi::Session;
use std::fs::File;
use std::path::Path;
use std::time::{Duration, Instant};

struct Bench {
    session: Session,
    journal: Vec<u8>,
    console: Console,
    file: Option<File>,
    output: Output,
    tally: Tally,
    /// Only what was refused is printed, with its line's number.
    refusals: bool,
}

impl Bench {
    fn new(words: &arguments::Bench) -> Result<Bench, Trouble> {
        let journal = journal::zeros(words.records)?;
        Ok(Bench {
            session: checker::fresh(),
            console: Console::new(journal.len()),
            journal,
            file: None,
            output: Output::new(),
            tally: Tally::default(),
            refusals: words.refusals,
        })
    }

    /// About how long a restore of so many bytes takes, from one of its front.
    fn restore_time(&self, bytes: usize) -> Duration {
        let front = bytes.min(1 << 22);
        let begun = Instant::now();
        checker::restore(&self.journal[..front]);
        begun.elapsed() * (bytes / front.max(1)) as u32
    }

    /// What the file's bytes restore: the console's own answer to `restore`, and the number of a bad record.
    fn restore(&mut self, bytes: usize) -> Result<Option<usize>, Trouble> {
        let progress = Progress::new(false);
        let about = match progress.is_shown() && bytes >> 24 > 0 {
            true => self.restore_time(bytes),
            false => Duration::ZERO,
        };
        let line = format!("restore {bytes}");
        let (session, journal) = (&mut self.session, &mut self.journal);
        let what = format!("restoring {} records", bytes / RECORD);
        let said = progress.during(&what, about, || {
            self.console.line(session, journal, line.as_bytes(), true)
        });
        let is_refused = Tally::default().count(said.text);
        if is_refused || !self.refusals {
            self.output.answer(said.text, b"")?;
            self.output.flush()?;
        }
        let at = String::from_utf8_lossy(said.text);
        let at = at.rsplit(' ').next().and_then(|n| n.parse().ok());
        Ok(at.filter(|_| is_refused))
    }

    /// What the file holds is read, made durable and restored. Only then is it told.
    fn start(&mut self, path: &Path) -> Result<(), Trouble> {
        let file = journal::open(path)?;
        let bytes = journal::read(path, &file, &mut self.journal)?;
        journal::refuse_others(path, &self.journal[..bytes])?;
        journal::make_durable(path, &file)?;
        if let Some(record) = self.restore(bytes)? {
            return Err(journal::bad(path, &self.journal[..bytes], record));
        }
        self.console.in_file = true;
        self.file = Some(file);
        Ok(())
    }

    /// The records of a line are kept before its answer is gathered; where they can't be, it has no answer.
    fn line(&mut self, line: &[u8], ended: bool) -> Result<(), Trouble> {
        self.tally.lines += 1;
        let before = checker::records(&self.session);
        let (session, journal) = (&mut self.session, &mut self.journal);
        let said = self.console.line(session, journal, line, ended);
        if let Some(file) = &self.file {
            journal::keep(file, journal, before..checker::records(session))?;
        }
        if said.text.is_empty() {
            return Ok(());
        }
        let is_refused = self.tally.count(said.text);
        if self.refusals && !is_refused {
            return Ok(());
        }
        if self.refusals {
            self.output.number(self.tally.lines);
        }
        let shown = said.shown.start..said.shown.start + said.shown.size;
        self.output.answer(said.text, &journal[shown])
    }

    /// All lines to the end of the input. What stands behind the last newline was cut short: it is answered, and not played.
    fn play(&mut self) -> Result<(), Trouble> {
        let mut lines = Lines::new();
        let mut progress = Progress::new(true);
        while lines.more()? {
            while let Some(line) = lines.next() {
                self.line(line, true)?;
            }
            self.output.flush()?;
            if let Some(size) = lines.size {
                progress.show("playing the trace", lines.came, size);
            }
        }
        if !lines.rest().is_empty() {
            self.line(lines.rest(), false)?;
        }
        self.output.flush()
    }
}

/// Plays standard input. The exit number.
pub fn run(words: &arguments::Bench) -> Result<u8, Trouble> {
    if is_one_closed() {
        let what = "standard input, output or error is closed, and answers would be lost. Start with all three open";
        return Err(Trouble(what.to_string()));
    }
    let mut bench = Bench::new(words)?;
    if let Some(path) = &words.file {
        bench.start(path)?;
    }
    let played = bench.play();
    // Answers before the one that could not be kept are due all the same.
    let ended = played.and(bench.output.flush());
    if let Err(trouble) = &ended {
        say(&trouble.0);
    }
    bench.tally.print();
    Ok(match ended {
        Ok(()) => bench.tally.exit_number(),
        Err(_) => crate::TROUBLE,
    })
}
