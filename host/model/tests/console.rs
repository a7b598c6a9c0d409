//! The programs under test, held against the model from outside.
//!
//! `bench` is named by ROSSINHIU_BENCH, `list` by ROSSINHIU_LIST, the tool by
//! ROSSINHIU_TOOL; else they are looked for where the builds put them. Other
//! seeds run on request: ROSSINHIU_SEED is the first, ROSSINHIU_SCRIPTS how many.

use rossinhiu_model::console::Console;
use rossinhiu_model::generate::{script, spoil, Mood, Rng, Script, BADS, MOODS};
use rossinhiu_model::harness::{
    exit_due, number, seed, turn, Program, Programs, Starts, ANSWER_LIMIT, LIMIT,
};
use rossinhiu_model::listing::list;
use std::io::{BufRead, BufReader, Read, Write};
use std::path::Path;
use std::process::{Child, Stdio};
use std::sync::mpsc::{self, Receiver, Sender};
use std::time::{Duration, Instant};
use std::{fs, thread};

rossinhiu_model::of_both! {
    scripts_are_answered_as_the_model_does,
    the_reach_script_is_answered_as_written,
    the_whole_memory_is_room,
    each_answer_comes_before_the_next_line,
    a_begun_line_holds_no_answer_back,
    the_size_of_writes_does_not_matter,
    returns_before_newlines_do_not_matter,
    journals_are_listed_as_the_model_does,
    odd_bytes_are_listed_as_the_model_does,
}

const LINES: usize = 500;

fn seeds() -> std::ops::Range<u64> {
    seed()..seed() + number("ROSSINHIU_SCRIPTS", 300)
}

// Running.

fn start(program: &Program) -> Child {
    let mut command = program.start();
    command.stdin(Stdio::piped()).stdout(Stdio::piped());
    if is_tool(program) {
        // A summary for each run.
        command.stderr(Stdio::null());
    }
    let started = command.spawn();
    started.unwrap_or_else(|error| panic!("cannot start {}: {error}", program.path.display()))
}

/// Only the tool has words before a test's own.
fn is_tool(program: &Program) -> bool {
    !program.words.is_empty()
}

/// The tool's exit number is due to what it wrote; a listing that ends at a bad record is a file's fault.
fn assert_code(program: &Program, out: &[u8], code: i32) -> Result<(), String> {
    let last = out.trim_ascii_end().rsplit(|b| *b == b'\n').next();
    let is_bad = last.is_some_and(|line| line.starts_with(b"bad "));
    let due = if is_bad { 3 } else { exit_due(out) };
    match is_tool(program) && code != due {
        true => Err(format!("exit number {code}, and {due} is due")),
        false => Ok(()),
    }
}

/// Waits for the end of a program whose standard output has ended.
fn ended(child: &mut Child, until: Instant) -> Result<i32, String> {
    loop {
        match child.try_wait() {
            Ok(Some(status)) => {
                // No document speaks of exit numbers; a fault is none of them.
                return match status.code() {
                    Some(101) | None => Err(format!("it broke off: {status}")),
                    Some(code) => Ok(code),
                };
            }
            Ok(None) if Instant::now() < until => thread::sleep(Duration::from_millis(1)),
            _ => {
                let _ = child.kill();
                let _ = child.wait();
                return Err(format!("it did not end within {LIMIT:?}"));
            }
        }
    }
}

/// Sends the pieces one write each, and gives back all of standard output.
fn play(program: &Program, pieces: Vec<Vec<u8>>) -> Result<Vec<u8>, String> {
    let until = Instant::now() + LIMIT;
    let mut child = start(program);
    let mut input = child.stdin.take().unwrap();
    let mut output = child.stdout.take().unwrap();
    thread::spawn(move || {
        for piece in pieces {
            // A program may end before it has read all.
            if input
                .write_all(&piece)
                .and_then(|()| input.flush())
                .is_err()
            {
                break;
            }
        }
    });
    let (tell, told) = mpsc::channel();
    thread::spawn(move || {
        let mut out = Vec::new();
        let _ = output.read_to_end(&mut out);
        let _ = tell.send(out);
    });
    match told.recv_timeout(LIMIT) {
        Ok(out) => {
            assert_code(program, &out, ended(&mut child, until)?)?;
            Ok(out)
        }
        Err(_) => {
            let _ = child.kill();
            let _ = child.wait();
            Err(format!("it did not end within {LIMIT:?}"))
        }
    }
}

// Comparing.

/// Bytes in a form that can be read, and not too many.
fn shown(bytes: &[u8]) -> String {
    let text = bytes[..bytes.len().min(400)].escape_ascii().to_string();
    match bytes.len() {
        0..=400 => format!("`{text}`"),
        length => format!("`{text}` .. ({length} bytes)"),
    }
}

fn first_difference(one: &[u8], other: &[u8]) -> usize {
    let alike = one.iter().zip(other).take_while(|(a, b)| a == b);
    alike.count()
}

fn contrast(expected: Option<&[u8]>, got: Option<&[u8]>) -> String {
    let side = |bytes: Option<&[u8]>| bytes.map_or("nothing".to_string(), shown);
    let mut text = format!("  expected {}\n  got      {}", side(expected), side(got));
    if let (Some(expected), Some(got)) = (expected, got) {
        if expected.len() > 300 {
            let at = first_difference(expected, got);
            text.push_str(&format!("\n  they differ from byte {at}"));
        }
    }
    text
}

/// Where the output parts from the model's: the line's number and a report.
fn difference(script: &Script, got: &[u8]) -> Option<(usize, String)> {
    let head = |line: usize, sent: &[u8]| {
        let (seed, mood) = (script.seed, script.mood);
        format!("seed {seed} ({mood:?}), line {line}: {}", shown(sent))
    };
    let mut rest = got;
    for (i, line) in script.lines.iter().enumerate() {
        let Some(expected) = &line.answer else {
            continue;
        };
        let end = rest.iter().position(|b| *b == b'\n');
        let (answer, after) = match end {
            Some(end) => (Some(&rest[..end]), &rest[end + 1..]),
            None if rest.is_empty() => (None, rest),
            None => (Some(rest), &rest[rest.len()..]),
        };
        if answer != Some(expected.as_slice()) || end.is_none() {
            let contrast = contrast(Some(expected), answer);
            let report = format!("{}\n{contrast}", head(i + 1, &line.sent));
            return Some((i + 1, report));
        }
        rest = after;
    }
    if rest.is_empty() {
        return None;
    }
    let report = format!("{}\n{}", head(LINES, b""), contrast(None, Some(rest)));
    Some((script.lines.len(), report))
}

fn scripts_are_answered_as_the_model_does(programs: &Programs) {
    let _turn = turn();
    let bench = programs.bench();
    let mut reports = Vec::new();
    let mut first = None;
    let (mut scripts, mut lines) = (0, 0);
    for seed in seeds() {
        let script = script(seed, LINES);
        scripts += 1;
        let got = match play(&bench, vec![script.input()]) {
            Ok(got) => got,
            Err(trouble) => {
                reports.push(format!("seed {seed}: {trouble}"));
                first = first.or(Some((scripts, lines)));
                break;
            }
        };
        if let Some((line, report)) = difference(&script, &got) {
            first = first.or(Some((scripts, lines + line)));
            reports.push(report);
        }
        lines += script.lines.len();
    }
    if let Some((script, line)) = first {
        let count = reports.len();
        reports.truncate(3);
        panic!(
            "{count} of {scripts} scripts differ; first in script {script}, after {line} lines\n{}\n\
             `make_script SEED {LINES}` prints a script again.",
            reports.join("\n")
        );
    }
    println!("{scripts} scripts of {LINES} lines, {lines} lines in all");
}

fn the_reach_script_is_answered_as_written(programs: &Programs) {
    let _turn = turn();
    let folder = Path::new(env!("CARGO_MANIFEST_DIR")).join("reach");
    let input = fs::read(folder.join("stdin")).expect("reach/stdin");
    let expected = fs::read(folder.join("stdout")).expect("reach/stdout");
    let got = play(&programs.bench(), vec![input]).unwrap_or_else(|trouble| panic!("{trouble}"));
    let lines = |bytes: &[u8]| -> Vec<Vec<u8>> {
        let lines = bytes.split_inclusive(|b| *b == b'\n');
        lines.map(<[u8]>::to_vec).collect()
    };
    let (expected, got) = (lines(&expected), lines(&got));
    for i in 0..expected.len().max(got.len()) {
        let (a, b) = (expected.get(i), got.get(i));
        let report = contrast(a.map(Vec::as_slice), b.map(Vec::as_slice));
        assert!(a == b, "line {} of the output\n{report}", i + 1);
    }
}

/// All 65,536 records of the journal in memory, and the listing of them.
fn the_whole_memory_is_room(programs: &Programs) {
    let _turn = turn();
    let (bench, list_program) = (programs.bench(), programs.list());
    let gaps = "0 ".repeat(20);
    let mut input = String::new();
    for client in 0..65_400 {
        input.push_str(&format!("open 1 2 2 {client} {gaps}\n"));
    }
    for cycle in 0..140 {
        input.push_str(&format!("offer PREPB 1 3 {cycle}\n"));
    }
    input.push_str("back\nstatus\nask ACT 0 0\noffer ACT 0 0 135\noffer ACT 0 0 136\n");
    for settings in ["1 1 2", "1 1 1", "3 1 2"] {
        input.push_str(&format!("open {settings} 1 {gaps}\n"));
    }
    input.push_str("restore 4194304\nstatus\nstretch\nbytes 4194240 64\nback\n");
    // The last opening, and one long before it, in mode 1.
    input.push_str(&format!("poke {} 1\npoke 643 1\n", 64 * 65_399 + 3));
    input.push_str("restore 4194303\nstatus\nback\nback\nstatus\n");
    let mut console = Console::new();
    let expected = console.feed(input.as_bytes());
    let got = play(&bench, vec![input.into_bytes()]).unwrap_or_else(|t| panic!("{t}"));
    let at = first_difference(&expected, &got);
    let tail = |bytes: &[u8]| shown(&bytes[at.saturating_sub(40).min(bytes.len())..]);
    assert!(
        expected == got,
        "from byte {at}\n  expected {}\n  got      {}",
        tail(&expected),
        tail(&got)
    );
    assert_eq!(console.state.records.len(), 65_536);
    compare_listing(&list_program, &console.journal, "the whole memory");
}

// A player at the other end of a pipe.

struct Talk {
    child: Child,
    lines: Option<Sender<Vec<u8>>>,
    answers: Receiver<Vec<u8>>,
}

impl Talk {
    fn new(program: &Program) -> Talk {
        let mut child = start(program);
        let mut input = child.stdin.take().unwrap();
        let mut output = BufReader::new(child.stdout.take().unwrap());
        let (lines, to_send) = mpsc::channel::<Vec<u8>>();
        // A program that reads no more holds this thread up, and not the test.
        thread::spawn(move || {
            for bytes in to_send {
                if input
                    .write_all(&bytes)
                    .and_then(|()| input.flush())
                    .is_err()
                {
                    break;
                }
            }
        });
        let (tell, answers) = mpsc::channel();
        thread::spawn(move || loop {
            let mut line = Vec::new();
            match output.read_until(b'\n', &mut line) {
                Ok(count) if count > 0 && tell.send(line).is_ok() => {}
                _ => break,
            }
        });
        Talk {
            child,
            lines: Some(lines),
            answers,
        }
    }

    fn send(&mut self, bytes: &[u8]) {
        let lines = self.lines.as_ref().expect("the talk has ended");
        lines.send(bytes.to_vec()).expect("it reads no more");
    }

    fn expect(&mut self, expected: &[u8], about: &str) {
        match self.answers.recv_timeout(ANSWER_LIMIT) {
            Ok(line) => {
                let got = line.strip_suffix(b"\n").unwrap_or(&line);
                let report = contrast(Some(expected), Some(got));
                assert!(got == expected, "{about}\n{report}");
            }
            Err(_) => panic!("no answer within {ANSWER_LIMIT:?}: {about}"),
        }
    }

    /// Ends standard input; nothing may be left to say.
    fn end(mut self) {
        self.lines = None;
        let left = self.answers.recv_timeout(ANSWER_LIMIT);
        assert!(left.is_err(), "an answer too many: {:?}", left.unwrap());
        ended(&mut self.child, Instant::now() + LIMIT).unwrap_or_else(|t| panic!("{t}"));
    }
}

impl Drop for Talk {
    fn drop(&mut self) {
        let _ = self.child.kill();
        let _ = self.child.wait();
    }
}

fn each_answer_comes_before_the_next_line(programs: &Programs) {
    let _turn = turn();
    let bench = programs.bench();
    for seed in seeds().take(13) {
        let script = script(seed, 300);
        let mut talk = Talk::new(&bench);
        for (i, line) in script.lines.iter().enumerate() {
            if !line.sent.ends_with(b"\n") {
                continue;
            }
            talk.send(&line.sent);
            if let Some(answer) = &line.answer {
                let about = format!("seed {seed}, line {}: {}", i + 1, shown(&line.sent));
                talk.expect(answer, &about);
            }
        }
        talk.end();
    }
}

/// Several lines in one write, the next one begun but not ended: all answers of
/// the whole lines come before the rest is sent.
fn a_begun_line_holds_no_answer_back(programs: &Programs) {
    let _turn = turn();
    let bench = programs.bench();
    for seed in seeds().take(13) {
        let script = script(seed, 300);
        let mut rng = Rng::new(seed);
        let mut talk = Talk::new(&bench);
        let mut next = 0;
        let mut begun = 0;
        while next < script.lines.len() {
            let count = rng.between(1, 4) as usize;
            let group = &script.lines[next..(next + count).min(script.lines.len())];
            if group.iter().any(|line| !line.sent.ends_with(b"\n")) {
                break;
            }
            let mut bytes: Vec<u8> = group.iter().flat_map(|l| l.sent.clone()).collect();
            bytes.drain(..begun);
            begun = match script.lines.get(next + count) {
                Some(line) => rng.below(line.sent.len() as u64) as usize,
                None => 0,
            };
            if begun > 0 {
                bytes.extend_from_slice(&script.lines[next + count].sent[..begun]);
            }
            talk.send(&bytes);
            for (i, line) in group.iter().enumerate() {
                if let Some(answer) = &line.answer {
                    let about = format!("seed {seed}, line {}", next + i + 1);
                    talk.expect(answer, &about);
                }
            }
            next += count;
        }
    }
}

fn pieces(bytes: &[u8], mut size: impl FnMut() -> usize) -> Vec<Vec<u8>> {
    let mut pieces = Vec::new();
    let mut rest = bytes;
    while !rest.is_empty() {
        let (piece, after) = rest.split_at(size().clamp(1, rest.len()));
        pieces.push(piece.to_vec());
        rest = after;
    }
    pieces
}

fn the_size_of_writes_does_not_matter(programs: &Programs) {
    let _turn = turn();
    let bench = programs.bench();
    let malformed = MOODS.iter().position(|m| *m == Mood::Malformed).unwrap() as u64;
    let moods = MOODS.len() as u64;
    let base = seeds().start / moods * moods;
    for seed in [base + malformed, base + moods - 1, base + moods + malformed] {
        let script = script(seed, LINES);
        let input = script.input();
        let mut rng = Rng::new(seed);
        let ways = [
            ("one write", vec![input.clone()]),
            ("byte by byte", pieces(&input, || 1)),
            ("odd pieces", pieces(&input, || rng.between(1, 19) as usize)),
            ("pieces of 4096", pieces(&input, || 4096)),
            ("pieces of 4097", pieces(&input, || 4097)),
            ("pieces of 8191", pieces(&input, || 8191)),
        ];
        for (way, pieces) in ways {
            let got = play(&bench, pieces).unwrap_or_else(|t| panic!("{way}: {t}"));
            if let Some((_, report)) = difference(&script, &got) {
                panic!("{way}: {report}");
            }
        }
    }
}

/// The same lines with returns before the newlines say the same.
fn returns_before_newlines_do_not_matter(programs: &Programs) {
    let _turn = turn();
    let bench = programs.bench();
    for seed in seeds().take(6) {
        let script = script(seed, 300);
        let mut returned = Vec::new();
        let mut console = Console::new();
        for line in &script.lines {
            match line.sent.strip_suffix(b"\n") {
                Some(front) if !front.ends_with(b"\r") && front.len() < 4_096 => {
                    returned.extend_from_slice(front);
                    returned.extend_from_slice(b"\r\n");
                }
                _ => returned.extend_from_slice(&line.sent),
            }
        }
        let mut modelled = console.feed(&returned);
        modelled.extend(console.finish());
        assert!(modelled == script.output(), "the model at seed {seed}");
        let got = play(&bench, vec![returned]).unwrap_or_else(|t| panic!("{t}"));
        if let Some((_, report)) = difference(&script, &got) {
            panic!("{report}");
        }
    }
}

// The listing.

fn compare_listing(program: &Program, journal: &[u8], about: &str) {
    let expected = list(journal);
    let got = play(program, vec![journal.to_vec()]).unwrap_or_else(|t| panic!("{about}: {t}"));
    if got != expected {
        let at = first_difference(&expected, &got);
        let line = expected[..at].iter().filter(|b| **b == b'\n').count();
        let nth = |bytes: &[u8]| {
            let mut lines = bytes.split(|b| *b == b'\n');
            lines.nth(line).map_or("nothing".to_string(), shown)
        };
        panic!(
            "{about}, {} bytes of journal: the listing differs in line {}\n  expected {}\n  got      {}",
            journal.len(),
            line + 1,
            nth(&expected),
            nth(&got)
        );
    }
}

fn journals_are_listed_as_the_model_does(programs: &Programs) {
    let _turn = turn();
    let program = programs.list();
    let mut made = [0; BADS.len()];
    let mut scripts = 0;
    for seed in seeds() {
        let script = script(seed, LINES);
        let mut rng = Rng::new(!seed);
        let about = |what: &str| format!("seed {seed}, {what}");
        let mut left = script.left.clone();
        compare_listing(&program, &left, &about("the journal left"));
        left.truncate(rng.below(left.len() as u64 + 1) as usize);
        compare_listing(&program, &left, &about("the journal left, cut"));
        let mut good = script.good.clone();
        good.extend(vec![rng.draw() as u8; rng.below(64) as usize]);
        compare_listing(&program, &good, &about("loose bytes behind"));
        good.truncate(rng.below(good.len() as u64 + 1) as usize);
        compare_listing(&program, &good, &about("cut"));
        for turn in 0..4 {
            let way = (4 * scripts + turn) % BADS.len();
            // Not every record has a place for every way to be bad.
            for _ in 0..10 {
                if let Some((bad, at)) = spoil(&mut rng, &script.good, BADS[way]) {
                    let about = about(&format!("record {at} bad by {:?}", BADS[way]));
                    compare_listing(&program, &bad, &about);
                    made[way] += 1;
                    break;
                }
            }
        }
        scripts += 1;
    }
    if scripts >= 100 {
        assert!(made.iter().all(|n| *n >= 10), "ways to be bad: {made:?}");
    }
    println!("{scripts} journals; ways to be bad: {made:?}");
}

fn odd_bytes_are_listed_as_the_model_does(programs: &Programs) {
    let _turn = turn();
    let program = programs.list();
    let mut rng = Rng::new(seeds().start);
    let lengths = [0, 1, 10, 63, 64, 65, 127, 128, 129, 4_096, 65_537];
    for length in lengths {
        for first in 0..5 {
            let mut noise: Vec<u8> = (0..length).map(|_| rng.draw() as u8).collect();
            if let Some(byte) = noise.first_mut() {
                *byte = first;
            }
            compare_listing(&program, &noise, "noise");
            compare_listing(&program, &vec![first; length], "one byte again and again");
        }
    }
    for (edition, mode, kind) in (0..4 * 5 * 9).map(|n| (n / 45, n / 9 % 5, n % 9)) {
        // One opening in each mode and edition, one command of each number, nothing else.
        let mut journal = vec![0; 128];
        journal[..4].copy_from_slice(&[1, 1, 1, mode]);
        journal[48] = edition;
        journal[64..66].copy_from_slice(&[2, kind]);
        compare_listing(&program, &journal, "one command");
    }
}

/// Record 16,777,216 is bad whatever it says. Sends over a gigabyte, so it runs
/// on request only: `cargo test --release -- --ignored`.
#[test]
#[ignore]
fn the_listing_ends_at_the_record_limit() {
    for programs in [Programs::RATTLE, Programs::TOOL] {
        ends_at_the_record_limit(&programs);
    }
}

fn ends_at_the_record_limit(programs: &Programs) {
    let _turn = turn();
    let mut child = start(&programs.list());
    let mut input = child.stdin.take().unwrap();
    let output = child.stdout.take().unwrap();
    thread::spawn(move || {
        let mut opening = [0; 64];
        opening[..4].copy_from_slice(&[1, 4, 2, 1]);
        let mut many = opening.repeat(1_024);
        for block in 0..16_384_u32 {
            for record in 0..1_024 {
                let client = 1_024 * block + record;
                let at = 64 * record as usize + 4;
                many[at - 1] = (record % 3) as u8;
                many[at..at + 4].copy_from_slice(&client.to_le_bytes());
            }
            if input.write_all(&many).is_err() {
                return;
            }
        }
        let _ = input.write_all(&opening);
    });
    let (tell, told) = mpsc::channel();
    thread::spawn(move || {
        let mut count = 0;
        for line in BufReader::new(output).lines().map_while(Result::ok) {
            let expected = match count {
                16_777_216 => "bad 16777216".to_string(),
                number => format!("{number} open {number}"),
            };
            if line != expected {
                let _ = tell.send(Err(format!("expected `{expected}`, got `{line}`")));
                return;
            }
            count += 1;
        }
        let _ = tell.send(Ok(count));
    });
    let told = told.recv_timeout(10 * LIMIT);
    let _ = child.kill();
    let _ = child.wait();
    assert_eq!(told, Ok(Ok(16_777_217)));
}
