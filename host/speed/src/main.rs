//! The speed of the library's calls beside a plain Rust twin and the checker design of source 000: `cargo run --release --bin speed`
//! prints the tables of docs/SPEED.md. Every figure is a median of interleaved rounds over the same buffers.
//! `speed full` adds a journal of 16,777,216 records (1 GiB). `speed bursts` prints the bursts and the restores alone, `speed history` a
//! question after ever more records, `speed before` the library beside that of an earlier commit.

mod bursts;
#[cfg(before)]
mod change;
mod history;

use rossinhiu::ffi::Command;
use rossinhiu::{checker, ffi};
use rossinhiu_model::generate::SETTINGS_A;
use rossinhiu_model::model::{MOST_RECORDS, RECORD};
use rossinhiu_speed::dice::Dice;
use rossinhiu_speed::{source000, twin};
use std::cell::RefCell;
use std::hint::black_box;
use std::time::Instant;

const RATIO: u64 = 4;
const RANKS: u64 = 2;
const OFFERS: usize = 4096;

const LIBRARY: &str = "library through C";
const TWIN: &str = "twin, `&mut`";
const BY_VALUE: &str = "twin by value";
const SOURCE: &str = "source 000";
const BYTES: &str = "bytes only";

/// What its lines are about, and who stands beside the library.
struct Table {
    what: &'static str,
    columns: &'static [&'static str],
}

const CALLS: Table = Table {
    what: "Call",
    columns: &[TWIN, BY_VALUE, SOURCE, BYTES],
};

/// One more command, accepted at its earliest cycle.
fn played(state: &mut ffi::Session, bytes: &mut [u8], dice: &mut Dice) -> Command {
    let mut c = loop {
        let c = dice.command(RANKS, 0);
        let kind = c.kind as usize - 1;
        if !twin::wrong_bank(state, kind, c.rank as usize, c.bank as usize) {
            break c;
        }
    };
    c.cycle = twin::earliest(state, c.kind, c.rank, c.bank).cycle;
    let answer = twin::offer(state, bytes, c.kind, c.rank, c.bank, c.cycle);
    assert_eq!(answer.number, 0);
    c
}

/// The mode and the edition of every opening: 2 and 2, or what ROSSINHIU_MODE and ROSSINHIU_EDITION say.
fn said(name: &str, otherwise: u8) -> u8 {
    let given = std::env::var(name).ok();
    given.map_or(otherwise, |n| n.parse().expect("a number below 256"))
}

fn mode() -> u8 {
    said("ROSSINHIU_MODE", 2)
}

fn edition() -> u8 {
    said("ROSSINHIU_EDITION", 2)
}

/// An opening; one of mode 1 or an edition that is not opened any more, as an old record has it.
fn open(state: &mut ffi::Session, bytes: &mut [u8]) {
    let at = state.progress.records as usize * RECORD;
    let number = twin::open(state, bytes, (RATIO, RANKS, 2), 7, &SETTINGS_A);
    assert_eq!(number, 0);
    bytes[at + 3] = mode();
    bytes[at + 48] = edition();
    state.terms.opening.mode = mode();
    state.terms.opening.edition = edition();
}

/// A journal of so many records: an opening at every 10,000th, a take-back once in so many.
fn journal(records: usize, once_in: usize) -> Vec<u8> {
    let mut dice = Dice(20_260_001);
    let mut bytes = vec![0; records * RECORD];
    let mut state = twin::fresh();
    for n in 0..records {
        if n % 10_000 == 0 {
            open(&mut state, &mut bytes);
        } else if n % once_in == once_in / 2 && state.progress.depth > 0 {
            assert_eq!(twin::take_back(&mut state, &mut bytes), 0);
        } else {
            played(&mut state, &mut bytes, &mut dice);
        }
    }
    bytes
}

/// Nanoseconds of one contender's round, for each operation in it.
struct Contender<'a> {
    name: &'static str,
    round: Box<dyn FnMut() -> f64 + 'a>,
}

fn contender<'a>(name: &'static str, round: impl FnMut() -> f64 + 'a) -> Contender<'a> {
    Contender {
        name,
        round: Box::new(round),
    }
}

fn timed(operations: usize, work: impl FnOnce()) -> f64 {
    let start = Instant::now();
    work();
    start.elapsed().as_nanos() as f64 / operations as f64
}

fn median(mut values: Vec<f64>) -> f64 {
    values.sort_by(f64::total_cmp);
    values[values.len() / 2]
}

/// Each contender's times; they take turns.
fn times(rounds: usize, contenders: &mut [Contender]) -> Vec<Vec<f64>> {
    let mut times = vec![Vec::new(); contenders.len()];
    // The first rounds warm up; a few rounds over a gigabyte need none.
    let warm = if rounds > 5 { 2 } else { 0 };
    for round in 0..rounds + warm {
        for (contender, times) in contenders.iter_mut().zip(&mut times) {
            let time = (contender.round)();
            if round >= warm {
                times.push(time);
            }
        }
    }
    times
}

impl Table {
    fn head(&self) {
        print!("| {} | {LIBRARY}, ns |", self.what);
        self.columns
            .iter()
            .for_each(|c| print!(" {c}, ns | ratio |"));
        println!("\n|---|---|{}", "---|---|".repeat(self.columns.len()));
    }

    /// Runs the contenders in turns, the library first, and prints a line: each one's median, and the median of the library's ratios
    /// to it.
    fn compare(&self, title: &str, rounds: usize, mut contenders: Vec<Contender>) {
        let times = times(rounds, &mut contenders);
        let library = &times[0];
        print!("| {title} | {:.0} |", median(library.clone()));
        for column in self.columns {
            let place = contenders.iter().position(|c| c.name == *column);
            let Some(times) = place.map(|i| &times[i]) else {
                print!(" | |");
                continue;
            };
            let ratios = library.iter().zip(times).map(|(a, b)| a / b).collect();
            print!(" {:.0} | {:.2} |", median(times.clone()), median(ratios));
        }
        println!();
    }
}

fn opened() -> ffi::Session {
    let mut state = twin::fresh();
    let mut room = [0; RECORD];
    open(&mut state, &mut room);
    state
}

/// A trace in which every command is accepted at its cycle.
fn trace() -> Vec<Command> {
    let mut dice = Dice(99);
    let mut state = opened();
    let mut room = vec![0; (OFFERS + 1) * RECORD];
    (0..OFFERS)
        .map(|_| played(&mut state, &mut room, &mut dice))
        .collect()
}

/// A call on a state of the library's, or on one of an earlier layout.
type Offer<S = ffi::Session> = fn(&mut S, &mut [u8], u64, u64, u64, u64) -> ffi::Numbers;

fn offer_by_value(
    state: &mut ffi::Session,
    journal: &mut [u8],
    kind: u64,
    rank: u64,
    bank: u64,
    cycle: u64,
) -> ffi::Numbers {
    let (at, size) = (journal.as_mut_ptr(), journal.len());
    let done = unsafe { twin::by_value::offer(*state, at, size, kind, rank, bank, cycle) };
    *state = done.session;
    ffi::Numbers {
        number: done.number,
        cycle: done.cycle,
        gap: done.gap,
        loss: done.loss,
    }
}

/// Offers each command; every answer has the number expected.
fn offer_each<S>(state: &mut S, room: &mut [u8], trace: &[Command], offer: Offer<S>, expect: u64) {
    for c in trace {
        let done = offer(state, room, c.kind, c.rank, c.bank, c.cycle);
        assert_eq!(done.number, expect);
    }
}

/// A round of so many commands from `start` on.
fn from_start<S: Copy>(
    start: &S,
    room: &mut [u8],
    commands: usize,
    play: impl FnOnce(&mut S, &mut [u8]),
) -> f64 {
    let mut state = *start;
    timed(commands, || {
        play(&mut state, room);
        black_box(&state);
    })
}

/// Source 000's design, with these commands in its tables.
fn design_with(before: &[Command]) -> source000::Checker {
    let mut design = source000::Checker::new(RATIO, RANKS as usize, mode().into(), &SETTINGS_A);
    for c in before {
        design.insert(c.kind as usize, c.rank as usize, c.bank as usize, c.cycle);
    }
    design
}

fn source_offers(before: &[Command], trace: &[Command]) -> f64 {
    let mut design = design_with(before);
    timed(trace.len(), || {
        for c in trace {
            let (kind, rank, bank) = (c.kind as usize, c.rank as usize, c.bank as usize);
            black_box(design.offer(kind, rank, bank, c.cycle));
        }
    })
}

/// A round of offers from `start` on, each answered with the number expected.
fn offers<S: Copy>(
    start: &S,
    room: &RefCell<Vec<u8>>,
    trace: &[Command],
    offer: Offer<S>,
    expect: u64,
) -> f64 {
    from_start(start, &mut room.borrow_mut(), trace.len(), |state, room| {
        offer_each(state, room, trace, offer, expect);
    })
}

/// Room behind a state for all offers, and for one more.
fn room_behind(start: &ffi::Session) -> RefCell<Vec<u8>> {
    let records = start.progress.records as usize + OFFERS + 1;
    RefCell::new(vec![0; records * RECORD])
}

/// The four contenders of an offer, each over the same buffer.
fn compare_offers(title: &str, start: &ffi::Session, before: &[Command], trace: &[Command]) {
    let room = room_behind(start);
    let expect = if before.is_empty() { 0 } else { 7 };
    let run = |offer: Offer| offers(start, &room, trace, offer, expect);
    CALLS.compare(
        title,
        201,
        vec![
            contender(LIBRARY, || run(checker::offer)),
            contender(TWIN, || run(twin::offer)),
            contender(BY_VALUE, || run(offer_by_value)),
            contender(SOURCE, || source_offers(before, trace)),
        ],
    );
}

type Ask<S = ffi::Session> = fn(&S, u64, u64, u64) -> ffi::Numbers;

fn earliest_by_value(state: &ffi::Session, kind: u64, rank: u64, bank: u64) -> ffi::Numbers {
    twin::by_value::earliest(*state, kind, rank, bank)
}

/// A round of questions, one for each command.
fn questions<S>(state: &S, asked: &[Command], ask: Ask<S>) -> f64 {
    timed(asked.len(), || {
        for c in asked {
            black_box(ask(black_box(state), c.kind, c.rank, c.bank));
        }
    })
}

fn source_questions(design: &source000::Checker, asked: &[Command]) -> f64 {
    timed(asked.len(), || {
        for c in asked {
            let (kind, rank, bank) = (c.kind as usize, c.rank as usize, c.bank as usize);
            black_box(design.earliest(kind, rank, bank));
        }
    })
}

fn compare_earliest(state: &ffi::Session, trace: &[Command]) {
    let run = |ask: Ask| questions(state, trace, ask);
    let design = design_with(trace);
    CALLS.compare(
        "earliest",
        201,
        vec![
            contender(LIBRARY, || run(checker::earliest)),
            contender(TWIN, || run(twin::earliest)),
            contender(BY_VALUE, || run(earliest_by_value)),
            contender(SOURCE, || source_questions(&design, trace)),
        ],
    );
}

fn take_back_by_value(state: &mut ffi::Session, journal: &mut [u8]) -> u64 {
    let (at, size) = (journal.as_mut_ptr(), journal.len());
    let done = unsafe { twin::by_value::take_back(*state, at, size) };
    *state = done.session;
    done.number
}

fn compare_take_backs(start: &ffi::Session) {
    type TakeBack = fn(&mut ffi::Session, &mut [u8]) -> u64;
    let room = RefCell::new(vec![0; (start.progress.records as usize + 64) * RECORD]);
    let run = |take_back: TakeBack| {
        let room = &mut room.borrow_mut()[..];
        let mut total = 0.0;
        for _ in 0..64 {
            let mut state = *start;
            total += timed(64, || {
                for _ in 0..64 {
                    assert_eq!(take_back(&mut state, room), 0);
                }
            });
            black_box(&state);
        }
        total / 64.0
    };
    CALLS.compare(
        "take-back",
        201,
        vec![
            contender(LIBRARY, || run(checker::take_back)),
            contender(TWIN, || run(twin::take_back)),
            contender(BY_VALUE, || run(take_back_by_value)),
        ],
    );
}

type Restore<S = ffi::Session> = fn(&[u8]) -> (S, u64, u64);

/// A round of one restore, for each record.
fn restored<S>(bytes: &[u8], restore: Restore<S>) -> f64 {
    timed(bytes.len() / RECORD, || {
        let (state, number, record) = restore(black_box(bytes));
        assert_eq!((number, record), (0, 0));
        black_box(&state);
    })
}

fn compare_restores(title: &str, rounds: usize, bytes: &[u8]) {
    CALLS.compare(
        title,
        rounds,
        vec![
            contender(LIBRARY, || restored(bytes, checker::restore)),
            contender(TWIN, || restored(bytes, twin::restore)),
            contender(BYTES, || {
                timed(bytes.len() / RECORD, || {
                    let words = bytes
                        .chunks_exact(8)
                        .map(|w| u64::from_le_bytes(w.try_into().unwrap()));
                    black_box(words.fold(0u64, u64::wrapping_add));
                })
            }),
        ],
    );
}

/// Two journals of 100,000 records; the second one.
fn compare_short_restores() -> Vec<u8> {
    let bytes = journal(100_000, 2);
    compare_restores("restore, every second record a take-back", 31, &bytes);
    let bytes = journal(100_000, 97);
    compare_restores("restore, a record of 100,000", 31, &bytes);
    bytes
}

fn compare_listings(bytes: &[u8]) {
    type List = fn(&mut ffi::Session, &[u8], bool, &mut [u8]) -> (usize, bool);
    let part = 1024 * RECORD;
    let out = RefCell::new(vec![0; part + 64]);
    let run = |list: List| {
        let out = &mut out.borrow_mut()[..];
        let mut state = twin::fresh();
        timed(bytes.len() / RECORD, || {
            for piece in bytes.chunks(part) {
                assert!(list(&mut state, piece, false, out).0 > 0);
            }
        })
    };
    CALLS.compare(
        "listing, a record",
        21,
        vec![
            contender(LIBRARY, || run(checker::list_part)),
            contender(TWIN, || run(twin::list_part)),
        ],
    );
}

/// The most memory that this process had at once, in KiB.
fn peak() -> u64 {
    let status = std::fs::read_to_string("/proc/self/status").unwrap_or_default();
    let line = status.lines().find(|line| line.starts_with("VmHWM:"));
    let words = line.and_then(|line| line.split_whitespace().nth(1));
    words.and_then(|kib| kib.parse().ok()).unwrap_or(0)
}

/// The trace's commands once more, each a cycle too early.
fn too_early(state: &ffi::Session, trace: &[Command]) -> Vec<Command> {
    let mut early = Vec::new();
    for c in trace {
        let kind = c.kind as usize - 1;
        let is_wrong = twin::wrong_bank(state, kind, c.rank as usize, c.bank as usize);
        let found = twin::earliest(state, c.kind, c.rank, c.bank);
        if found.gap != 0 && !is_wrong {
            let cycle = found.cycle - 1;
            early.push(Command { cycle, ..*c });
        }
    }
    early
}

/// The state after the whole trace.
fn played_out(trace: &[Command]) -> ffi::Session {
    let mut state = opened();
    let mut room = vec![0; (OFFERS + 1) * RECORD];
    offer_each(&mut state, &mut room, trace, twin::offer, 0);
    state
}

fn compare_calls(trace: &[Command], full: bool) {
    CALLS.head();
    compare_offers("accepted offer", &opened(), &[], trace);
    let state = played_out(trace);
    let early = too_early(&state, trace);
    compare_offers("refused offer (7)", &state, trace, &early);
    compare_earliest(&state, trace);
    compare_take_backs(&state);
    let bytes = compare_short_restores();
    compare_listings(&bytes);
    if full {
        let bytes = journal(MOST_RECORDS, 97);
        let before = peak();
        compare_restores("restore, a record of 16,777,216", 5, &bytes);
        println!(
            "\nMemory beyond the journal while it was restored: {} KiB",
            peak() - before
        );
    }
    println!();
}

#[cfg(before)]
fn compare_change(trace: &[Command]) {
    change::compare_change(trace);
}

#[cfg(not(before))]
fn compare_change(_: &[Command]) {
    eprintln!("Built without it: let ROSSINHIU_BEFORE name the libcapi.a of an earlier commit.");
    std::process::exit(2);
}

fn main() {
    let word = std::env::args().nth(1).unwrap_or_default();
    let trace = trace();
    match word.as_str() {
        "bursts" => {
            bursts::compare_bursts(&trace);
            println!();
            CALLS.head();
            compare_short_restores();
        }
        "history" => history::compare_history(),
        "before" => compare_change(&trace),
        _ => {
            compare_calls(&trace, word == "full");
            bursts::compare_bursts(&trace);
        }
    }
}
