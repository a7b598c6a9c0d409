//! A player in Rust: it plays a trace into the module, and every command is held to the client's timings first.
//!
//! ```text
//! cargo run --release --example player JOURNAL ROOM < ../../examples/player.trace
//! ```
//!
//! The trace, what is printed and how it ends are those of `examples/player.c`.

use rossinhiu::bench::{Bench, Journal, Kind, Offered, Opened, Settings, TakenBack};
use std::io::{self, BufRead, Write};
use std::process::exit;

const KINDS: [(&str, Kind); 7] = [
    ("ACT", Kind::Act),
    ("RD", Kind::Rd),
    ("WR", Kind::Wr),
    ("PREPB", Kind::Prepb),
    ("PREAB", Kind::Preab),
    ("REFAB", Kind::Refab),
    ("REFPB", Kind::Refpb),
];

/// Why the play ends before its time.
type End = Box<dyn std::error::Error>;

fn number(word: &str, most: u64) -> Option<u64> {
    let is_plain = word.bytes().all(|b| b.is_ascii_digit());
    word.parse().ok().filter(|n| is_plain && *n <= most)
}

fn numbers(words: &[&str], most: u64) -> Option<Vec<u64>> {
    words.iter().map(|word| number(word, most)).collect()
}

fn settings(words: &[&str]) -> Option<Settings> {
    let front = numbers(words.get(..4)?, u32::MAX.into())?;
    let gaps = numbers(&words[4..], u16::MAX.into())?;
    let gaps: Vec<u16> = gaps.iter().map(|gap| *gap as u16).collect();
    Some(Settings {
        ratio: front[0],
        ranks: front[1],
        mode: front[2],
        client: front[3] as u32,
        gaps: gaps.try_into().ok()?,
    })
}

fn opened(bench: &mut Bench, settings: &Settings) -> Result<String, End> {
    let number = match bench.open(settings)? {
        Opened::Accepted => 0,
        Opened::NoRoom => 9,
        Opened::BadSettings => 10,
    };
    Ok(format!("open {number}"))
}

fn offered(bench: &mut Bench, name: &str, place: [u64; 3]) -> Result<String, End> {
    let [rank, bank, cycle] = place;
    let Some((_, kind)) = KINDS.iter().find(|(known, _)| *known == name) else {
        return Ok("offer 2 0 0 0".to_string());
    };
    let refused = match bench.offer(*kind, rank, bank, cycle)? {
        // Here the command goes to the module.
        Offered::Accepted { cycle } => return Ok(format!("play {name} {rank} {bank} {cycle}")),
        Offered::TooEarly { cycle, gap, loss } => {
            return Ok(format!("offer 7 {cycle} {gap} {loss}"));
        }
        Offered::NoSession => 1,
        Offered::BadRank => 3,
        Offered::BadBank => 4,
        Offered::PastLastCycle => 5,
        Offered::NotLater => 6,
        Offered::WrongState => 12,
        Offered::NoRoom => 9,
    };
    Ok(format!("offer {refused} 0 0 0"))
}

fn taken_back(bench: &mut Bench) -> Result<String, End> {
    let number = match bench.take_back()? {
        TakenBack::Accepted => 0,
        TakenBack::NoSession => 1,
        TakenBack::NoDepth => 8,
        TakenBack::NoRoom => 9,
    };
    Ok(format!("back {number}"))
}

/// What a line is answered with; none if it is no request.
fn answer(bench: &mut Bench, line: &str) -> Option<Result<String, End>> {
    let words: Vec<&str> = line.split(' ').collect();
    match words.as_slice() {
        ["open", rest @ ..] => Some(opened(bench, &settings(rest)?)),
        ["offer", name, rest @ ..] => {
            let place = numbers(rest, u64::MAX)?.try_into().ok()?;
            Some(offered(bench, name, place))
        }
        ["back"] => Some(taken_back(bench)),
        _ => None,
    }
}

/// Plays each line; what stands behind the last newline was cut short, and is no line.
fn play(bench: &mut Bench) -> Result<(), End> {
    let mut input = io::stdin().lock();
    let mut line = Vec::new();
    while input.read_until(b'\n', &mut line)? > 0 {
        let whole = line.strip_suffix(b"\n").map(String::from_utf8_lossy);
        let said = match whole.as_deref() {
            Some(text) if text.is_empty() || text.starts_with('#') => None,
            Some(text) => Some(answer(bench, text)),
            None => Some(None),
        };
        if let Some(said) = said {
            let Some(said) = said else {
                println!("?");
                return Err("a line of the trace is no request, so the play ends here".into());
            };
            println!("{}", said?);
            io::stdout().flush()?;
        }
        line.clear();
    }
    Ok(())
}

fn tell(bench: &Bench) {
    match bench.status() {
        Some(s) => println!(
            "status 0 {} {} {} {} {} {}",
            s.client, s.opening, s.survivors, s.depth, s.last, s.records
        ),
        None => println!("status 1 0 0 0 0 0 0"),
    }
    let stretch = bench.stretch();
    let start = bench.bytes().len().saturating_sub(stretch.len());
    println!(
        "stretch {} {}",
        if stretch.is_empty() { 0 } else { start },
        stretch.len()
    );
}

fn run(path: &str, room: usize) -> Result<(), End> {
    let restored = Bench::restore(Journal::at(path, room)?);
    if let Err(rossinhiu::bench::Refused::BadRecord(record)) = &restored {
        println!("restore 11 {record}");
    }
    let mut bench = restored?;
    println!("restored {} records", bench.bytes().len() / 64);
    play(&mut bench)?;
    tell(&bench);
    Ok(())
}

fn main() {
    let words: Vec<String> = std::env::args().collect();
    let [_, path, room] = words.as_slice() else {
        eprintln!("usage: player JOURNAL ROOM < TRACE");
        exit(2);
    };
    if let Err(why) = run(path, room.parse().unwrap_or(0)) {
        eprintln!("player: {why}");
        exit(1);
    }
}
