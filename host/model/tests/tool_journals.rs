//! `rossinhiu list` with its options and `rossinhiu stretch`, held against the model's listing and the journal's own bytes. The plain
//! listing is held by tests/console.rs and tests/reads.rs.

use rossinhiu_model::file::{from_before, steps, FileConsole};
use rossinhiu_model::generate::{spoil, Rng, BADS, LIVE_MODES};
use rossinhiu_model::harness::*;
use rossinhiu_model::listing::list;
use rossinhiu_model::model::RECORD;
use std::fs;
use std::path::Path;

/// The tool with words of its own.
fn asked(words: &[&str], input: &[u8]) -> Ran {
    let words: Vec<&Path> = words.iter().map(Path::new).collect();
    run(&mut command(&tool(&[]), &words), input)
}

fn name(path: &Path) -> &str {
    path.to_str().unwrap()
}

/// A journal of some clients, of whom each opens more than once, sessions in mode 1 among theirs, with loose bytes behind.
fn journal(seed: u64, loose: usize) -> Vec<u8> {
    let mut rng = Rng::new(seed);
    let mut file = Vec::new();
    for _ in 0..12 {
        let mut model = FileConsole::over(&from_before(&mut rng, &file));
        let gaps = "9 ".repeat(20);
        let mode = rng.pick(&LIVE_MODES);
        model.step(format!("open 1 2 {mode} {} {gaps}", rng.below(3)));
        let count = rng.below(8) as usize;
        // An opening among these is of a client that nobody asks for.
        steps(&mut rng, &mut model, count);
        file = model.file;
    }
    [file, vec![1; loose]].concat()
}

/// A journal's lines and records, and whose each is.
struct Read {
    lines: Vec<(String, Vec<u8>, u64)>,
    end: String,
}

fn read(journal: &[u8]) -> Read {
    let text = String::from_utf8(list(journal)).unwrap();
    let mut lines: Vec<String> = text.lines().map(|l| format!("{l}\n")).collect();
    let end = lines.pop().unwrap();
    let mut client = 0;
    let owned = lines
        .into_iter()
        .zip(journal.chunks(RECORD))
        .map(|(line, record)| {
            let words: Vec<&str> = line.split_whitespace().collect();
            if words[1] == "open" {
                client = words[2].parse().unwrap();
            }
            (line.clone(), record.to_vec(), client)
        });
    let lines = owned.collect();
    Read { lines, end }
}

impl Read {
    fn of(&self, client: Option<u64>) -> Vec<&(String, Vec<u8>, u64)> {
        let is_his = |line: &&(String, Vec<u8>, u64)| client.is_none_or(|c| c == line.2);
        self.lines.iter().filter(is_his).collect()
    }

    /// What `list` prints: the last of a client's lines; the end line where no client is named, a bad one always.
    fn listed(&self, client: Option<u64>, last: Option<usize>) -> String {
        let his = self.of(client);
        let from = last.map_or(0, |last| his.len().saturating_sub(last));
        let mut text: String = his[from..].iter().map(|line| line.0.as_str()).collect();
        if client.is_none() || self.end.starts_with("bad") {
            text += &self.end;
        }
        text
    }

    fn stretch(&self, client: u64) -> Vec<u8> {
        let his = self.of(Some(client));
        his.iter().flat_map(|line| line.1.clone()).collect()
    }
}

/// Every choice of client and count, from a file and from standard input.
fn assert_lists(folder: &Folder, journal: &[u8], about: &str) {
    let path = folder.at("journal");
    fs::write(&path, journal).unwrap();
    let read = read(journal);
    let is_bad = read.end.starts_with("bad");
    for client in [None, Some(0), Some(2), Some(77)] {
        for last in [None, Some(0), Some(1), Some(3), Some(1_000)] {
            let mut words = vec!["list".to_string()];
            words.extend(
                client
                    .iter()
                    .flat_map(|c| ["--client".to_string(), c.to_string()]),
            );
            words.extend(last.map(|last| format!("--last={last}")));
            let mut named: Vec<&str> = words.iter().map(String::as_str).collect();
            let piped = asked(&named, journal);
            named.push(name(&path));
            let ran = asked(&named, b"");
            let about = format!("{about}, {named:?}");
            assert_eq!(ran.text(), read.listed(client, last), "{about}");
            assert_eq!(piped.text(), ran.text(), "{about}");
            let code = if is_bad { 3 } else { 0 };
            assert_eq!(
                (ran.status.code(), piped.status.code()),
                (Some(code), Some(code)),
                "{about}"
            );
            assert_eq!(
                ran.said().contains("is bad"),
                is_bad,
                "{about}: {}",
                ran.said()
            );
        }
    }
}

/// What is said beside a stretch.
fn said_beside(read: &Read, client: u64) -> &'static str {
    let his = read.of(Some(client));
    let openings = his.iter().filter(|line| line.0.contains("open")).count();
    match (read.end.starts_with("bad"), openings) {
        (true, _) => "is bad",
        (_, 0) => "has no record in it",
        (_, 1) => "",
        _ => "openings; the records of all of them",
    }
}

fn assert_stretches(folder: &Folder, journal: &[u8], about: &str) {
    let path = folder.at("journal");
    fs::write(&path, journal).unwrap();
    let read = read(journal);
    let is_bad = read.end.starts_with("bad");
    for client in [0, 1, 2, 77] {
        let number = client.to_string();
        let ran = asked(&["stretch", name(&path), "--client", &number], b"");
        let about = format!("{about}, client {client}: {}", ran.said());
        let due = read.stretch(client);
        assert!(
            ran.out == due,
            "{about}{} bytes of {}",
            ran.out.len(),
            due.len()
        );
        let code = if is_bad { 3 } else { i32::from(due.is_empty()) };
        assert_eq!(ran.status.code(), Some(code), "{about}");
        let said = said_beside(&read, client);
        assert!(ran.said().contains(said), "{about}");
        assert_eq!(ran.said().is_empty(), said.is_empty(), "{about}");
    }
}

#[test]
fn a_client_and_the_last() {
    let _turn = turn();
    let folder = Folder::new();
    for (seed, loose) in [(1, 0), (2, 63)] {
        let journal = journal(seed, loose);
        assert_lists(&folder, &journal, &format!("seed {seed}"));
        assert_stretches(&folder, &journal, &format!("seed {seed}"));
    }
    assert_lists(&folder, b"", "no record");
    assert_stretches(&folder, &[0; 10], "no record");
}

#[test]
fn a_bad_record_ends_both() {
    let _turn = turn();
    let folder = Folder::new();
    let mut rng = Rng::new(seed() + 30);
    let good = journal(3, 0);
    let mut made = 0;
    for way in BADS {
        if let Some((bad, at)) = spoil(&mut rng, &good, way) {
            let about = format!("record {at} bad by {way:?}");
            assert_stretches(&folder, &bad, &about);
            if made == 0 {
                assert_lists(&folder, &bad, &about);
            }
            made += 1;
        }
    }
    assert!(made >= 6, "{made}");
}

/// Parts of 65,536 bytes: a client's records on both sides of a border, and just at one.
#[test]
fn across_the_parts() {
    let _turn = turn();
    let folder = Folder::new();
    let mut model = FileConsole::over(b"");
    let gaps = "0 ".repeat(20);
    for (client, count) in [(0, 1_000), (2, 23), (0, 1), (2, 1_022), (0, 3), (2, 1)] {
        model.step(format!("open 1 1 0 {client} {gaps}"));
        for cycle in 0..count {
            model.step(format!("offer PREPB 0 0 {cycle}"));
        }
    }
    assert_eq!(model.file.len(), RECORD * 2_056);
    assert_stretches(&folder, &model.file, "across");
    let read = read(&model.file);
    let path = folder.at("journal");
    for last in [1, 9, 1_031, 1_032, 1_033, 2_056] {
        let ran = asked(&["list", name(&path), "--last", &last.to_string()], b"");
        assert!(
            ran.text() == read.listed(None, Some(last)),
            "the last {last}"
        );
    }
}

/// A file that can't be had: a line on standard error, nothing else, and exit number 3.
#[test]
fn files_that_cannot_be_read() {
    let _turn = turn();
    let folder = Folder::new();
    let (missing, held) = (folder.at("missing"), folder.0.clone());
    for (path, words) in [
        (&missing, ["can't be opened", "No such file"]),
        (&held, ["can't be read", "Is a directory"]),
    ] {
        for asking in [
            vec!["list", name(path)],
            vec!["stretch", name(path), "--client", "7"],
        ] {
            let ran = asked(&asking, b"");
            assert_eq!(
                (ran.out.len(), ran.status.code()),
                (0, Some(3)),
                "{asking:?}"
            );
            ran.told(&words, &format!("{asking:?}"));
        }
    }
    let (path, log) = (folder.at("journal"), folder.at("log"));
    fs::write(&path, journal(4, 0)).unwrap();
    let stretch = tool(&["stretch", "--client", "2"]);
    let ran = run(
        &mut shimmed(&stretch, &[&path], &log, "read 1 short 640;read 2 errno 5"),
        b"",
    );
    ran.told(&["can't be read", "Input/output error"], "a failing disk");
    let whole = read(&fs::read(&path).unwrap()).stretch(2);
    assert!(whole.starts_with(&ran.out) && ran.status.code() == Some(3));
}

/// Who reads no more of a listing has seen enough; a stretch that broke off is told of.
#[test]
fn a_reader_that_goes() {
    let _turn = turn();
    let folder = Folder::new();
    let path = folder.at("journal");
    fs::write(&path, journal(5, 0)).unwrap();
    for (program, code) in [
        (tool(&["list"]), 0),
        (tool(&["stretch", "--client", "2"]), 3),
    ] {
        let (reader, writer) = std::io::pipe().unwrap();
        drop(reader);
        let mut child = spawn(command(&program, &[&path]).stdout(writer));
        assert_eq!(child.wait().unwrap().code(), Some(code), "{program:?}");
    }
    let full = fs::OpenOptions::new()
        .write(true)
        .open("/dev/full")
        .unwrap();
    let mut command = command(&tool(&["list"]), &[&path]);
    assert_eq!(command.stdout(full).status().unwrap().code(), Some(3));
}
