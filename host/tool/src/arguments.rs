//! The words behind `rossinhiu`.

use rossinhiu::bench::MOST_RECORDS;
use std::ffi::{OsStr, OsString};
use std::path::PathBuf;

/// A page of help.
#[derive(Clone, Copy)]
pub enum Page {
    All,
    Bench,
    List,
    Stretch,
}

pub struct Bench {
    pub file: Option<PathBuf>,
    pub records: usize,
    pub refusals: bool,
}

pub struct List {
    pub file: Option<PathBuf>,
    pub client: Option<u32>,
    pub last: Option<usize>,
}

pub struct Stretch {
    pub file: PathBuf,
    pub client: u32,
}

pub enum Asked {
    Page(Page),
    Bench(Bench),
    List(List),
    Stretch(Stretch),
}

/// The options that a word has: those with a number, and those without.
struct Options {
    word: &'static str,
    numbered: &'static [&'static str],
    plain: &'static [&'static str],
}

const BENCH: Options = Options {
    word: "bench",
    numbered: &["--records"],
    plain: &["--refusals"],
};
const LIST: Options = Options {
    word: "list",
    numbered: &["--client", "--last"],
    plain: &[],
};
const STRETCH: Options = Options {
    word: "stretch",
    numbered: &["--client"],
    plain: &[],
};

/// What was given behind a word.
#[derive(Default)]
struct Given {
    files: Vec<PathBuf>,
    numbers: Vec<(&'static str, u64)>,
    plain: Vec<&'static str>,
    help: bool,
}

impl Options {
    fn wrong(&self, what: &str) -> String {
        let word = self.word;
        format!("{word}: {what}. 'rossinhiu {word} --help' says what is expected")
    }

    fn number(&self, name: &'static str, value: Option<OsString>) -> Result<u64, String> {
        let value = value.ok_or_else(|| self.wrong(&format!("{name} wants a number behind it")))?;
        let text = value
            .to_str()
            .filter(|t| t.bytes().all(|b| b.is_ascii_digit()));
        text.and_then(|t| t.parse().ok())
            .ok_or_else(|| self.wrong(&format!("{name} wants a number, not '{}'", value.display())))
    }

    /// One option, as `--name NUMBER`, `--name=NUMBER` or `--name`.
    fn option(
        &self,
        word: &str,
        given: &mut Given,
        rest: &mut dyn Iterator<Item = OsString>,
    ) -> Result<(), String> {
        let (name, value) = match word.split_once('=') {
            Some((name, value)) => (name, Some(OsString::from(value))),
            None => (word, None),
        };
        if let Some(name) = self.numbered.iter().find(|known| **known == name) {
            let value = value.or_else(|| rest.next());
            given.numbers.push((name, self.number(name, value)?));
            return Ok(());
        }
        match self.plain.iter().find(|known| **known == word) {
            Some(name) => given.plain.push(name),
            None => {
                return Err(self.wrong(&format!(
                    "'{word}' is no option. A file of that name goes behind --"
                )))
            }
        }
        Ok(())
    }

    fn read(&self, words: &mut dyn Iterator<Item = OsString>) -> Result<Given, String> {
        let mut given = Given::default();
        while let Some(word) = words.next() {
            if word == "--" {
                given.files.extend(words.map(PathBuf::from));
                break;
            }
            if word == "--help" {
                given.help = true;
                break;
            }
            match option(&word) {
                Some(name) => self.option(&name, &mut given, words)?,
                None => given.files.push(PathBuf::from(word)),
            }
        }
        Ok(given)
    }
}

/// The word as an option, if it looks like one.
fn option(word: &OsStr) -> Option<String> {
    let text = word.to_string_lossy();
    (text.len() > 1 && text.starts_with('-')).then(|| text.into_owned())
}

impl Given {
    fn number(&self, name: &str) -> Option<u64> {
        let found = self.numbers.iter().rev().find(|(known, _)| *known == name);
        found.map(|(_, number)| *number)
    }

    fn file(&mut self, options: &Options) -> Result<Option<PathBuf>, String> {
        match self.files.len() {
            0 | 1 => Ok(self.files.pop()),
            count => Err(options.wrong(&format!("{count} files were named, and one is the most"))),
        }
    }

    fn client(&self, options: &Options) -> Result<Option<u32>, String> {
        let client = self.number("--client").map(u32::try_from).transpose();
        client.map_err(|_| options.wrong("a client's number is at most 4294967295"))
    }
}

fn bench(mut given: Given) -> Result<Asked, String> {
    let records = given.number("--records").unwrap_or(MOST_RECORDS as u64);
    if !(1..=MOST_RECORDS as u64).contains(&records) {
        let most = format!("--records is 1 to {MOST_RECORDS}, not {records}");
        return Err(BENCH.wrong(&most));
    }
    Ok(Asked::Bench(Bench {
        file: given.file(&BENCH)?,
        records: records as usize,
        refusals: !given.plain.is_empty(),
    }))
}

fn list(mut given: Given) -> Result<Asked, String> {
    let last = given.number("--last");
    Ok(Asked::List(List {
        file: given.file(&LIST)?,
        client: given.client(&LIST)?,
        last: last.map(|n| usize::try_from(n).unwrap_or(usize::MAX)),
    }))
}

fn stretch(mut given: Given) -> Result<Asked, String> {
    let client = given.client(&STRETCH)?;
    match (given.file(&STRETCH)?, client) {
        (Some(file), Some(client)) => Ok(Asked::Stretch(Stretch { file, client })),
        (None, _) => Err(STRETCH.wrong("the journal's file is missing")),
        (_, None) => Err(STRETCH.wrong("--client and the client's number are missing")),
    }
}

/// What the words ask for, or what is wrong with them.
pub fn read(mut words: impl Iterator<Item = OsString>) -> Result<Asked, String> {
    let expected = "expected bench, list or stretch. 'rossinhiu --help' says what each does";
    let word = words.next().ok_or(expected)?;
    let (options, page, asked): (_, _, fn(Given) -> _) = match word.to_str() {
        Some("--help") => return Ok(Asked::Page(Page::All)),
        Some("bench") => (BENCH, Page::Bench, bench),
        Some("list") => (LIST, Page::List, list),
        Some("stretch") => (STRETCH, Page::Stretch, stretch),
        _ => return Err(format!("{expected}, not '{}'", word.display())),
    };
    let given = options.read(&mut words)?;
    if given.help {
        return Ok(Asked::Page(page));
    }
    asked(given)
}
