//! What `rossinhiu bench` adds to `bench`: one to a file, exit numbers, the summary, refusals alone, room for as many records as it is
//! asked for, and a long trace that is killed in the middle. What both have is held by the other tests, from the same code.
//!
//! ROSSINHIU_TRACE is the number of lines of the long trace, 20,000 where it is not said.

use rossinhiu_model::console::Console;
use rossinhiu_model::file::{answered, printed, puts, sent, FileConsole, Step};
use rossinhiu_model::generate::{opening_a, script, Rng, MOODS};
use rossinhiu_model::harness::*;
use rossinhiu_model::model::RECORD;
use std::collections::BTreeMap;
use std::fs;
use std::io::{BufRead, BufReader, Read, Write};
use std::os::unix::fs::MetadataExt;
use std::path::Path;
use std::process::{Child, ChildStdin, ChildStdout};
use std::thread;
use std::time::{Duration, Instant};

fn bench() -> Program {
    tool(&["bench"])
}

/// The tool with words of its own.
fn asked(words: &[&str], input: &[u8]) -> Ran {
    let words: Vec<&Path> = words.iter().map(Path::new).collect();
    run(&mut command(&tool(&[]), &words), input)
}

fn name(path: &Path) -> &str {
    path.to_str().unwrap()
}

/// Bytes and times of a file, so that a write of the same bytes is seen too.
fn stamp(path: &Path) -> (Vec<u8>, [i64; 2]) {
    let about = fs::metadata(path).unwrap();
    (fs::read(path).unwrap(), [about.mtime(), about.mtime_nsec()])
}

/// The bytes of an opening.
fn one_opening() -> Vec<u8> {
    let mut model = FileConsole::over(b"");
    model.step(opening_a());
    model.file
}

// One to a file.

/// A bench that was started over a file, and holds it.
struct Holder {
    child: Child,
    input: ChildStdin,
    output: BufReader<ChildStdout>,
}

impl Holder {
    fn over(path: &Path) -> Holder {
        let mut child = spawn(&mut command(&bench(), &[path]));
        let input = child.stdin.take().unwrap();
        let output = BufReader::new(child.stdout.take().unwrap());
        let mut holder = Holder {
            child,
            input,
            output,
        };
        assert_eq!(holder.answer(), "restore 0 0\n");
        holder
    }

    fn answer(&mut self) -> String {
        let mut line = String::new();
        self.output.read_line(&mut line).unwrap();
        line
    }

    fn ask(&mut self, line: &str) -> String {
        self.input.write_all(line.as_bytes()).unwrap();
        self.input.write_all(b"\n").unwrap();
        self.answer()
    }
}

#[test]
fn a_second_one_is_refused() {
    let _turn = turn();
    let folder = Folder::new();
    let path = folder.at("journal");
    let mut first = Holder::over(&path);
    assert_eq!(first.ask(&opening_a()), "open 0\n");
    let before = stamp(&path);
    // By its own name and by another one.
    let other = folder.at("link");
    fs::hard_link(&path, &other).unwrap();
    for path in [&path, &other] {
        let second = run(&mut command(&bench(), &[path]), b"status\nback\n");
        second.ended_by_itself();
        assert_eq!(second.text(), "");
        second.told(
            &["another rossinhiu", "or name another file"],
            "a second one",
        );
        assert_eq!(second.summary, "");
    }
    assert_eq!(stamp(&path), before);
    // A listing may be had at any time.
    assert_eq!(
        asked(&["list", name(&path)], b"").text(),
        "0 open 7\nend 1 0\n"
    );
    assert_eq!(first.ask("offer ACT 0 0 0"), "offer 0 0 0 0\n");
    assert_eq!(first.ask("status"), "status 0 7 0 1 1 0 2\n");
    // Killed, it holds the file no longer.
    first.child.kill().unwrap();
    first.child.wait().unwrap();
    let mut third = Holder::over(&path);
    assert_eq!(third.ask("status"), "status 0 7 0 1 1 0 2\n");
    third.child.kill().unwrap();
    third.child.wait().unwrap();
}

/// Of several that start at once over a file that is not there yet, one has it.
#[test]
fn one_of_many_that_start_at_once() {
    let _turn = turn();
    let folder = Folder::new();
    for round in 0..5 {
        let path = folder.at(&format!("{round}"));
        let start = |_| spawn(&mut command(&bench(), &[&path]));
        let mut children: Vec<Child> = (0..6).map(start).collect();
        let mut lines = Vec::new();
        for child in &mut children {
            let mut line = String::new();
            let mut output = BufReader::new(child.stdout.take().unwrap());
            output.read_line(&mut line).unwrap();
            lines.push(line);
        }
        lines.retain(|line| !line.is_empty());
        assert_eq!(lines, ["restore 0 0\n"]);
        let ended = children.into_iter().map(|mut child| {
            drop(child.stdin.take());
            child.wait().unwrap().code().unwrap()
        });
        let mut codes: Vec<i32> = ended.collect();
        codes.sort_unstable();
        assert_eq!(codes, [0, 3, 3, 3, 3, 3]);
    }
}

// What is no file on a disk.

#[test]
fn a_pipe_and_a_device_are_left_alone() {
    let _turn = turn();
    let folder = Folder::new();
    let pipe = folder.at("pipe");
    let made = run(&mut command(Path::new("mkfifo"), &[&pipe]), b"");
    assert!(made.status.success());
    for path in [&pipe, Path::new("/dev/null"), Path::new("/dev/full")] {
        let ran = run(&mut command(&bench(), &[path]), b"status\n");
        ran.ended_by_itself();
        assert_eq!(ran.text(), "");
        ran.told(&["pipe or a device", "name a file on a disk"], name(path));
        assert_eq!(ran.status.code(), Some(3));
    }
}

/// Standard output that takes nothing: records accepted until then stay in the file.
#[test]
fn answers_that_cannot_be_written() {
    let _turn = turn();
    let folder = Folder::new();
    let path = folder.at("journal");
    fs::write(&path, b"").unwrap();
    let full = || {
        fs::OpenOptions::new()
            .write(true)
            .open("/dev/full")
            .unwrap()
    };
    for words in [vec![], vec![path.as_path()]] {
        let mut command = command(&bench(), &words);
        let mut child = spawn(command.stdout(full()));
        let mut input = child.stdin.take().unwrap();
        // It may have ended before.
        let _ = input.write_all(format!("{}\n", opening_a()).as_bytes());
        drop(input);
        let mut said = String::new();
        child
            .stderr
            .take()
            .unwrap()
            .read_to_string(&mut said)
            .unwrap();
        assert_eq!(child.wait().unwrap().code(), Some(3));
        assert!(
            said.contains("can't be written") && said.contains("has room"),
            "{said}"
        );
    }
}

// Exit numbers.

#[test]
fn exit_numbers() {
    let _turn = turn();
    let folder = Folder::new();
    let path = folder.at("journal");
    let file = name(&path);
    let opening = opening_a();
    let good = format!("# all is well\n\n{opening}\noffer ACT 0 0 0\nask RD 0 0\nstatus\nstretch\nbytes 0 1\nback\n");
    let [refused, malformed, cut] =
        ["back\n", "back 1\n", "status"].map(|last| format!("{good}{last}"));
    let memory = format!("{good}restore 64\npoke 0 1\n");
    let bad = format!("{good}poke 0 9\nrestore 64\n");
    let missing = folder.at("missing/journal");
    for (words, input, code) in [
        (vec!["bench"], good.as_str(), 0),
        (vec!["bench"], "", 0),
        (vec!["bench"], &refused, 1),
        (vec!["bench"], &malformed, 1),
        (vec!["bench"], &cut, 1),
        (vec!["bench"], &memory, 0),
        (vec!["bench"], &bad, 1),
        (vec!["bench"], "status\n", 1),
        (vec!["bench"], "ask ACT 0 0\n", 1),
        (vec!["bench", file], &good, 0),
        (vec!["bench", file], "status\n", 0),
        (vec!["bench", file], "restore 64\n", 1),
        (vec!["bench", "--refusals"], &good, 0),
        (vec!["bench", "--refusals"], &refused, 1),
        (vec!["bench", name(&missing)], "", 3),
        (vec!["list", file], "", 0),
        (vec!["list", name(&missing)], "", 3),
        (vec!["stretch", file, "--client", "7"], "", 0),
        (vec!["stretch", file, "--client", "8"], "", 1),
    ] {
        let ran = asked(&words, input.as_bytes());
        let about = format!("{words:?} {input}: {}", ran.said());
        assert_eq!(ran.status.code(), Some(code), "{about}");
    }
}

// The summary and the refusals.

const GAPS: &str = "tRC tRRD tRCD tRAS tCCD tCCD_L tCCD_S tRDWR tRTP tWRRD tWRRD_L tWRRD_S tWRPRE tRPpb tRPab tPPD tRFCab tRFCpb tPBR2PBR tFAW";

/// What the model's answers come to.
#[derive(Default)]
struct Sum {
    lines: usize,
    accepted: usize,
    told: usize,
    malformed: usize,
    refused: BTreeMap<u64, usize>,
    early: BTreeMap<usize, usize>,
    /// What is left with `--refusals`.
    text: String,
}

impl Sum {
    fn add(&mut self, answer: Option<&str>) {
        self.lines += 1;
        let Some(answer) = answer else { return };
        let words: Vec<&str> = answer.split(' ').collect();
        // A burst counts as its line does: accepted whole, or refused.
        let accepts = ["open", "offer", "back", "burst"].contains(&words[0]);
        let place = number_at(&words);
        let number = place.map_or(0, |at| words[at].parse().unwrap());
        match (answer, number) {
            ("?", _) => self.malformed += 1,
            (_, 0) if accepts => self.accepted += 1,
            (_, 0) => self.told += 1,
            (_, number) => *self.refused.entry(number).or_default() += 1,
        }
        if let Some(at) = place.filter(|_| number == 7) {
            let gap = words[at + 2].parse().unwrap();
            *self.early.entry(gap).or_default() += 1;
        }
        if answer == "?" || number != 0 {
            self.text += &format!("{} {answer}\n", self.lines);
        }
    }

    /// The first line of the summary, and what must stand in the others.
    fn assert_told(&self, ran: &Ran, about: &str) {
        let refused: usize = self.refused.values().sum();
        let (accepted, told, malformed) = (self.accepted, self.told, self.malformed);
        let first = format!(
            "summary: {} lines, {accepted} accepted, {told} told, {refused} refused, {malformed} malformed",
            self.lines
        );
        let lines: Vec<&str> = ran.summary.lines().collect();
        assert_eq!(lines[0], first, "{about}");
        assert_eq!(lines.len(), 1 + self.refused.len(), "{about}: {lines:?}");
        let gaps: Vec<&str> = GAPS.split(' ').collect();
        for ((number, count), line) in self.refused.iter().zip(&lines[1..]) {
            let early: Vec<String> = self
                .early
                .iter()
                .map(|(gap, n)| format!("{} {n}", gaps[gap - 1]))
                .collect();
            let end = match number {
                7 => format!("too early: {count} ({})", early.join(", ")),
                _ => format!(": {count}"),
            };
            let is_due = line.starts_with(&format!("summary: refused with {number}, "));
            assert!(
                is_due && line.ends_with(&end),
                "{about}: {line}, expected {end}"
            );
        }
    }
}

/// Scripts of every mood, in memory and over a file, whole and by their refusals alone.
#[test]
fn refusals_and_summary_are_those_of_the_model() {
    let _turn = turn();
    let folder = Folder::new();
    for seed in seed()..seed() + MOODS.len() as u64 {
        let input = script(seed, 400).input();
        for in_file in [false, true] {
            let mut console = Console::new();
            console.in_file = in_file;
            let mut sum = Sum::default();
            for line in input.split_inclusive(|b| *b == b'\n') {
                let front = line.strip_suffix(b"\n");
                let answer = console.line(front.unwrap_or(line), front.is_some());
                sum.add(answer.as_deref());
            }
            let path = folder.at(&format!("{seed}"));
            let mut words = vec!["bench", "--records", "65536", "--refusals"];
            words.extend(in_file.then_some(name(&path)));
            let about = format!("seed {seed}, in a file: {in_file}");
            let ran = asked(&words, &input);
            assert!(ran.text() == sum.text, "{about}: {}", ran.text());
            sum.assert_told(&ran, &about);
            assert_eq!(ran.said(), "", "{about}");
            // All answers, and the same summary.
            let _ = fs::remove_file(&path);
            words.retain(|word| *word != "--refusals");
            let whole = asked(&words, &input);
            whole.ended_by_itself();
            assert_eq!(whole.summary, ran.summary, "{about}");
        }
    }
}

/// A bad record at the start is told with `--refusals` too, and a restore with 0 is not.
#[test]
fn a_start_by_its_refusals() {
    let _turn = turn();
    let folder = Folder::new();
    let path = folder.at("journal");
    fs::write(&path, [9; 64]).unwrap();
    let words = ["bench", name(&path), "--refusals"];
    let ran = asked(&words, b"status\n");
    assert_eq!(
        (ran.text().as_str(), ran.status.code()),
        ("restore 11 0\n", Some(3))
    );
    ran.told(&["record 0 is bad"], "a bad record");
    fs::write(&path, b"").unwrap();
    let ran = asked(&words, b"\nstatus\n");
    assert_eq!(
        (ran.text().as_str(), ran.status.code()),
        ("2 status 1 0 0 0 0 0 0\n", Some(1))
    );
}

// The room.

#[test]
fn the_room_is_what_was_asked_for() {
    let _turn = turn();
    let input = format!("lend 18446744073709551615\n{}\noffer ACT 0 0 0\noffer RD 0 0 9\noffer RD 0 0 18\nbytes 192 0\nbytes 193 0\nbytes 191 1\nrestore 999\nstatus\n", opening_a());
    let ran = asked(&["bench", "--records", "3"], input.as_bytes());
    let expected = "lend 192\nopen 0\noffer 0 0 0 0\noffer 0 9 0 0\noffer 9 0 0 0\nbytes\n?\nbytes 00\nrestore 0 0\nstatus 0 7 0 2 2 9 3\n";
    assert_eq!(ran.text(), expected);
    let folder = Folder::new();
    let path = folder.at("journal");
    let bytes = asked(&["bench", name(&path), "--records=3"], input.as_bytes());
    assert_eq!(bytes.text().lines().count(), 11);
    let whole = fs::read(&path).unwrap();
    assert_eq!(whole.len(), 3 * RECORD);
    // Too long for two, and it says how many it takes.
    let ran = asked(&["bench", "--records", "2", name(&path)], b"");
    ran.ended_by_itself();
    assert_eq!(ran.text(), "");
    ran.told(
        &["longer than 128 bytes", "--records 3 or more"],
        "a small room",
    );
    assert_file(&path, &whole, "a small room");
    // Longer than any journal: only the length is there.
    let file = fs::File::create(&path).unwrap();
    file.set_len((1 << 30) + 1).unwrap();
    let ran = asked(&["bench", "--records", "2", name(&path)], b"");
    ran.told(&["No journal is longer than 1073741824 bytes"], "too long");
    assert_eq!(ran.status.code(), Some(3));
}

/// 16,777,216 records where nothing is said; a gigabyte that is touched only where it is written.
#[test]
fn memory_is_touched_where_it_is_written() {
    let _turn = turn();
    let mut child = spawn(&mut command(&bench(), &[]));
    let mut input = child.stdin.take().unwrap();
    let mut output = BufReader::new(child.stdout.take().unwrap());
    let lines = format!(
        "lend 18446744073709551615\n{}\npoke 1073741823 1\nbytes 1073741822 2\n",
        opening_a()
    );
    input.write_all(lines.as_bytes()).unwrap();
    for expected in [
        "lend 1073741824",
        "open 0",
        "poke 1073741823 1",
        "bytes 0001",
    ] {
        let mut line = String::new();
        output.read_line(&mut line).unwrap();
        assert_eq!(line.trim_end(), expected);
    }
    let status = fs::read_to_string(format!("/proc/{}/status", child.id())).unwrap();
    let most = status
        .lines()
        .find_map(|l| l.strip_prefix("VmHWM:"))
        .unwrap();
    let most: u64 = most.trim().trim_end_matches(" kB").parse().unwrap();
    drop(input);
    assert_eq!(child.wait().unwrap().code(), Some(0));
    assert!(most < 200_000, "{most} KiB were touched");
}

// A long trace.

/// A line of a long trace: commands of a client who opens anew now and then, so that the model is not slow.
fn long_line(i: u64, cycle: &mut u64) -> String {
    let bank = i / 4 % 16;
    if i % 400 == 0 {
        *cycle = 0;
        return opening_a();
    }
    *cycle += 12;
    match i % 8 {
        // The opening stood in place of the activate.
        _ if i % 400 == 1 => format!("offer ACT 0 {bank} {cycle}"),
        0 | 4 => format!("offer ACT 0 {bank} {cycle}"),
        1 | 5 => format!("offer RD 0 {bank} {cycle}"),
        2 => "back".to_string(),
        6 => format!("offer WR 0 {bank} {cycle}"),
        _ => format!("offer PREPB 0 {bank} {cycle}"),
    }
}

fn long_trace(count: u64) -> (Vec<Step>, Vec<u8>) {
    let mut model = FileConsole::over(b"");
    model.console.journal = vec![0; RECORD * count as usize];
    model.console.lent = model.console.journal.len();
    let mut cycle = 0;
    let steps = (0..count).map(|i| model.step(long_line(i, &mut cycle)));
    (steps.collect(), model.file)
}

/// Sends the lines, and kills the program once the file is so long. What was printed.
fn killed_at(path: &Path, lines: Vec<u8>, length: u64) -> String {
    let mut child = spawn(&mut command(&bench(), &[path]));
    let mut input = child.stdin.take().unwrap();
    let mut output = child.stdout.take().unwrap();
    let sender = thread::spawn(move || {
        let _ = input.write_all(&lines);
        input
    });
    let reader = thread::spawn(move || {
        let mut out = Vec::new();
        let _ = output.read_to_end(&mut out);
        out
    });
    let until = Instant::now() + 10 * LIMIT;
    while fs::metadata(path).map_or(0, |m| m.len()) < length {
        assert!(Instant::now() < until, "the file does not grow to {length}");
        thread::sleep(Duration::from_micros(200));
    }
    child.kill().unwrap();
    child.wait().unwrap();
    let _ = sender.join();
    String::from_utf8(reader.join().unwrap()).unwrap()
}

/// Killed in the middle, restarted, finished: the file is the model's.
#[test]
fn a_long_trace_is_killed_and_finished() {
    let _turn = turn();
    let folder = Folder::new();
    let path = folder.at("journal");
    let (steps, file) = long_trace(number("ROSSINHIU_TRACE", 20_000));
    let length = file.len() as u64 / 2;
    let begun = Instant::now();
    let out = killed_at(&path, sent(&steps), length);
    assert!(printed(&steps).starts_with(&out), "other answers");
    let records = fs::metadata(&path).unwrap().len() as usize / RECORD;
    assert!(answered(&steps, &out) <= records && records < puts(&steps).len());
    // On behind the last line whose record is there.
    let written = steps.iter().enumerate().filter(|(_, s)| s.put.is_some());
    let (last, _) = written.take(records).last().unwrap();
    let rest = &steps[last + 1..];
    let source = folder.at("rest");
    fs::write(&source, sent(rest)).unwrap();
    let ran = finished(&path, &source);
    assert!(ran == printed(rest), "other answers after the kill");
    assert_file(&path, &file, "a long trace");
    println!(
        "{} lines, {} records, killed at {records}, {:.1?}",
        steps.len(),
        file.len() / RECORD,
        begun.elapsed()
    );
}

/// Plays a file to its end, however long that takes.
fn finished(path: &Path, source: &Path) -> String {
    let input = fs::File::open(source).unwrap();
    let out = command(&bench(), &[path]).stdin(input).output().unwrap();
    assert!(matches!(out.status.code(), Some(0 | 1)));
    String::from_utf8(out.stdout).unwrap()
}

/// 16,777,216 records restore with 0, and there is no room for one more. Takes a gigabyte of disk and of memory, so it runs on request
/// only: `cargo test --release -- --ignored`.
#[test]
#[ignore]
fn a_full_journal_restores() {
    let _turn = turn();
    let folder = Folder::new();
    let (path, source) = (folder.at("journal"), folder.at("source"));
    let one = one_opening();
    let mut file = fs::File::create(&path).unwrap();
    for _ in 0..1024 {
        file.write_all(&one.repeat(16_384)).unwrap();
    }
    drop(file);
    fs::write(&source, "status\nback\noffer ACT 0 0 0\n").unwrap();
    let begun = Instant::now();
    let out = finished(&path, &source);
    println!("16,777,216 records in {:.1?}", begun.elapsed());
    assert_eq!(
        out,
        "restore 0 0\nstatus 0 7 16777215 0 0 0 16777216\nback 8\noffer 9 0 0 0\n"
    );
    assert_eq!(fs::metadata(&path).unwrap().len(), 1 << 30);
}

/// A journal that `bench` wrote goes on under the tool, and the other way round.
#[test]
fn bench_and_the_tool_take_turns_over_a_file() {
    let _turn = turn();
    let folder = Folder::new();
    let path = folder.at("journal");
    let mut rng = Rng::new(seed() + 20);
    fs::write(&path, b"").unwrap();
    for round in 0..10 {
        let programs = [Programs::RATTLE, Programs::TOOL][round % 2].bench();
        play_on(&programs, &path, &mut rng, 30, &format!("round {round}"));
    }
}
