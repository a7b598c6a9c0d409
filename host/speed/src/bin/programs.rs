//! The speed of whole programs: `cargo run --release --bin programs`. The tool's time for a trace in memory beside that of `bench`, in the
//! same run; with `full` also a long trace into a file, and the restore of a full journal with the memory that it takes.
//!
//! ROSSINHIU_LINES, ROSSINHIU_TRACE and ROSSINHIU_RECORDS are how long they are; a million lines, 2,000,000 lines and 16,777,216 records
//! where nothing is said.

use rossinhiu_model::generate::opening_a;
use rossinhiu_model::harness::{command, number, spawn, tool, Folder, Program, Programs};
use rossinhiu_model::model::RECORD;
use std::fs::{self, File};
use std::io::{BufRead, BufReader, BufWriter, Read, Write};
use std::os::unix::fs::FileExt;
use std::path::Path;
use std::process::Stdio;
use std::time::Instant;

/// A contender's name, and how long one of its runs takes, in seconds.
type Contender<'a> = (&'a str, Box<dyn FnMut() -> f64 + 'a>);

fn median(mut figures: Vec<f64>) -> f64 {
    figures.sort_by(f64::total_cmp);
    figures[figures.len() / 2]
}

/// The contenders take turns. A ratio is the median of the rounds' own: how many times as long the first takes.
fn compare(title: &str, rounds: usize, mut contenders: Vec<Contender>) {
    let mut times = vec![Vec::new(); contenders.len()];
    for _ in 0..rounds {
        for (i, (_, run)) in contenders.iter_mut().enumerate() {
            times[i].push(run());
        }
    }
    println!("{title}:");
    for (i, (name, _)) in contenders.iter().enumerate() {
        let ratios = times[0].iter().zip(&times[i]).map(|(a, b)| a / b).collect();
        let (time, ratio) = (median(times[i].clone()), median(ratios));
        println!("  {name}: {time:.2} s, ratio {ratio:.2}");
    }
}

fn timed(work: impl FnOnce()) -> f64 {
    let begun = Instant::now();
    work();
    begun.elapsed().as_secs_f64()
}

/// A program over an input, its answers thrown away.
fn played(program: &Program, words: &[&Path], input: &Path) {
    let mut command = command(program, words);
    command.stdin(File::open(input).unwrap());
    let done = command.stdout(Stdio::null()).stderr(Stdio::null()).status();
    assert!(matches!(done.unwrap().code(), Some(0 | 1)));
}

/// Lines of a trace: openings, commands and questions, in memory; or only what is accepted, so that each line is a record.
fn write_trace(path: &Path, lines: u64, only_accepted: bool) {
    let mut out = BufWriter::new(File::create(path).unwrap());
    let opening = opening_a();
    let mut cycle = 0;
    for i in 0..lines {
        cycle = if i % 400 == 0 { 0 } else { cycle + 12 };
        let bank = i / 4 % 16;
        // Behind an opening the first bank is opened a line later.
        let step = match i % 400 {
            1 => 0,
            2 => 1,
            _ => i % 4,
        };
        let line = match step {
            _ if i % 400 == 0 => opening.clone(),
            0 => format!("offer ACT 0 {bank} {cycle}"),
            1 => format!("offer RD 0 {bank} {cycle}"),
            2 if only_accepted => "back".to_string(),
            2 => format!("ask WR 0 {bank}"),
            _ => format!("offer PREPB 0 {bank} {cycle}"),
        };
        writeln!(out, "{line}").unwrap();
    }
    out.flush().unwrap();
}

fn compare_memory(folder: &Folder) {
    let lines = number("ROSSINHIU_LINES", 1_000_000);
    let trace = folder.at("trace");
    write_trace(&trace, lines, false);
    let (ours, bench) = (
        tool(&["bench", "--records", "65536"]),
        Programs::RATTLE.bench(),
    );
    let title = format!("{lines} lines in memory (at most 1.2 of bench)");
    let run = |program: Program| timed(|| played(&program, &[], &trace));
    let contenders: Vec<Contender> = vec![
        ("rossinhiu bench", Box::new(|| run(ours.clone()))),
        ("bench", Box::new(|| run(bench.clone()))),
    ];
    compare(&title, 7, contenders);
}

/// Each record is written and made durable by itself, and nothing else is done.
fn write_records(path: &Path, count: u64) {
    let file = File::create(path).unwrap();
    for n in 0..count {
        file.write_all_at(&[7; RECORD], RECORD as u64 * n).unwrap();
        file.sync_data().unwrap();
    }
}

fn compare_file(folder: &Folder) {
    let lines = number("ROSSINHIU_TRACE", 2_000_000);
    let (trace, path) = (folder.at("trace"), folder.at("day.journal"));
    write_trace(&trace, lines, true);
    let ours = tool(&["bench"]);
    let title = format!("{lines} commands into a file");
    let fresh = || fs::remove_file(&path).unwrap_or_default();
    let contenders: Vec<Contender> = vec![
        (
            "rossinhiu bench FILE",
            Box::new(|| {
                fresh();
                timed(|| played(&ours, &[&path], &trace))
            }),
        ),
        (
            "the bytes written and synced alone",
            Box::new(|| {
                fresh();
                timed(|| write_records(&path, lines))
            }),
        ),
    ];
    compare(&title, 1, contenders);
}

/// The time to the first answer, and the most memory until then, in KiB.
fn restored(program: &Program, path: &Path) -> (f64, u64) {
    let begun = Instant::now();
    let mut child = spawn(&mut command(program, &[path]));
    let mut line = String::new();
    let mut output = BufReader::new(child.stdout.take().unwrap());
    output.read_line(&mut line).unwrap();
    let taken = begun.elapsed().as_secs_f64();
    assert_eq!(line, "restore 0 0\n");
    let status = fs::read_to_string(format!("/proc/{}/status", child.id())).unwrap();
    let most = status.lines().find_map(|l| l.strip_prefix("VmHWM:"));
    let most = most.map_or("0", |m| m.trim().trim_end_matches(" kB"));
    drop(child.stdin.take());
    child.wait().unwrap();
    (taken, most.parse().unwrap_or(0))
}

fn read_bytes(path: &Path) {
    let (mut file, mut piece) = (File::open(path).unwrap(), vec![0; 1 << 20]);
    while file.read(&mut piece).unwrap() > 0 {}
}

fn compare_restore(folder: &Folder) {
    let records = number("ROSSINHIU_RECORDS", 16_777_216);
    let (trace, path) = (folder.at("trace"), folder.at("full.journal"));
    write_trace(&trace, 1, true);
    let ours = tool(&["bench"]);
    played(&ours, &[&path], &trace);
    // An opening again and again: other records name the number of theirs.
    let opening = fs::read(&path).unwrap();
    fs::write(&path, opening.repeat(records as usize)).unwrap();
    let mut most = 0;
    let list = tool(&["list"]);
    let contenders: Vec<Contender> = vec![
        (
            "rossinhiu bench FILE, to its first line",
            Box::new(|| {
                let (taken, memory) = restored(&ours, &path);
                most = memory;
                taken
            }),
        ),
        (
            "rossinhiu list FILE",
            Box::new(|| timed(|| played(&list, &[&path], &trace))),
        ),
        (
            "the bytes read alone",
            Box::new(|| timed(|| read_bytes(&path))),
        ),
    ];
    compare(&format!("a restore of {records} records"), 3, contenders);
    println!(
        "  memory: {:.2} of the journal's bytes",
        most as f64 * 1024.0 / (records as f64 * 64.0)
    );
}

fn main() {
    let folder = Folder::new();
    compare_memory(&folder);
    if std::env::args().nth(1).is_some_and(|word| word == "full") {
        compare_file(&folder);
        compare_restore(&folder);
    }
}
