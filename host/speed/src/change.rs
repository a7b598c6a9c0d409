//! The library beside that of an earlier commit, whose archive ROSSINHIU_BEFORE named when this was built.

use crate::bursts::assert_all;
use crate::{contender, design_with, journal, offers, opened, played_out, questions, restored};
use crate::{from_start, room_behind, source_offers, source_questions};
use crate::{Ask, Offer, Table, LIBRARY, OFFERS, RANKS, SOURCE, TWIN};
use rossinhiu::checker;
use rossinhiu::ffi::{Command, Numbers, Session};
use rossinhiu_model::model::{NAMES, RECORD};
use rossinhiu_speed::{before, twin};
use std::cell::RefCell;

/// The journal with the newest edition that the earlier commit knows.
fn known_journal(bytes: &[u8]) -> Vec<u8> {
    let mut bytes = bytes.to_vec();
    for record in bytes.chunks_exact_mut(RECORD).filter(|r| r[0] == 1) {
        record[48] = record[48].min(before::KNOWN);
    }
    bytes
}

const BEFORE: &str = "before";
const CHANGE: Table = Table {
    what: "Call",
    columns: &[BEFORE, TWIN, SOURCE],
};

/// As many questions of each kind, at each bank of both ranks in turn.
fn asked(kind: u64) -> Vec<Command> {
    let place = |n: u64| Command {
        kind,
        rank: n % RANKS,
        bank: if kind == 5 || kind == 6 {
            0
        } else {
            n / RANKS % 16
        },
        cycle: 0,
    };
    (0..OFFERS as u64 / 4).map(place).collect()
}

fn compare_questions(title: &str, trace: &[Command], asked: &[Command]) {
    let (state, design) = (played_out(trace), design_with(trace));
    let old = before::Session::of(&state);
    for c in asked {
        let told = checker::earliest(&state, c.kind, c.rank, c.bank);
        assert_eq!(told, before::earliest(&old, c.kind, c.rank, c.bank));
        assert_eq!(told, twin::earliest(&state, c.kind, c.rank, c.bank));
    }
    let run = |ask: Ask| questions(&state, asked, ask);
    CHANGE.compare(
        title,
        201,
        vec![
            contender(LIBRARY, || run(checker::earliest)),
            contender(BEFORE, || questions(&old, asked, before::earliest)),
            contender(TWIN, || run(twin::earliest)),
            contender(SOURCE, || source_questions(&design, asked)),
        ],
    );
}

fn compare_offers(trace: &[Command]) {
    let (start, room) = (opened(), room_behind(&opened()));
    let old = before::Session::of(&start);
    let run = |offer: Offer| offers(&start, &room, trace, offer, 0);
    CHANGE.compare(
        "accepted offer",
        201,
        vec![
            contender(LIBRARY, || run(checker::offer)),
            contender(BEFORE, || offers(&old, &room, trace, before::offer, 0)),
            contender(TWIN, || run(twin::offer)),
            contender(SOURCE, || source_offers(&[], trace)),
        ],
    );
}

fn compare_restores() {
    let bytes = journal(100_000, 97);
    let old = known_journal(&bytes);
    CHANGE.compare(
        "restore, a record of 100,000",
        31,
        vec![
            contender(LIBRARY, || restored(&bytes, checker::restore)),
            contender(BEFORE, || restored(&old, before::restore)),
            contender(TWIN, || restored(&bytes, twin::restore)),
        ],
    );
}

type Burst<S> = fn(&mut S, &mut [u8], &[Command]) -> (u64, Numbers);

/// A round of one burst, for each command.
fn bursts<S: Copy>(start: &S, room: &RefCell<Vec<u8>>, trace: &[Command], burst: Burst<S>) -> f64 {
    from_start(start, &mut room.borrow_mut(), trace.len(), |state, room| {
        assert_all(burst(state, room, trace), trace.len());
    })
}

fn compare_bursts(trace: &[Command]) {
    let (start, room) = (opened(), room_behind(&opened()));
    let old = before::Session::of(&start);
    let run = |burst: Burst<Session>| bursts(&start, &room, trace, burst);
    CHANGE.compare(
        "a command of a burst of 4,096, as structs",
        201,
        vec![
            contender(LIBRARY, || run(checker::offer_all)),
            contender(BEFORE, || bursts(&old, &room, trace, before::offer_all)),
            contender(TWIN, || run(twin::offer_all)),
            contender(SOURCE, || source_offers(&[], trace)),
        ],
    );
}

pub fn compare_change(trace: &[Command]) {
    CHANGE.head();
    for kind in 1..=7 {
        let title = format!("earliest {}", NAMES[kind as usize - 1]);
        compare_questions(&title, trace, &asked(kind));
    }
    let all: Vec<Command> = (1..=7).flat_map(asked).collect();
    compare_questions("earliest, average of the seven", trace, &all);
    compare_offers(trace);
    compare_restores();
    compare_bursts(trace);
}
