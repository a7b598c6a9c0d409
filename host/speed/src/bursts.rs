//! The trace in bursts of one size after the other, per command: the library's two calls beside the twin's loop in bursts of the same
//! size, single offers through C and source 000's design.

use crate::{contender, from_start, offer_each, opened, room_behind, source_offers, Table};
use crate::{LIBRARY, OFFERS, SOURCE, TWIN};
use rossinhiu::checker;
use rossinhiu::ffi::{Command, Numbers, Session};
use rossinhiu_model::model::RECORD;
use rossinhiu_speed::twin;

const SINGLE: &str = "single offers through C";
const BURSTS: Table = Table {
    what: "Burst, a command",
    columns: &[TWIN, SINGLE, SOURCE],
};

/// Plays the list on a state and a journal.
type Play<'a> = &'a dyn Fn(&mut Session, &mut [u8]);

/// Every command of so many was accepted.
pub fn assert_all(done: (u64, Numbers), listed: usize) {
    let none = Numbers {
        number: 0,
        cycle: 0,
        gap: 0,
        loss: 0,
    };
    assert_eq!(done, (listed as u64, none));
}

/// The commands in the places of a command record, and ones in the bytes that are not read.
fn pieces_of(list: &[Command]) -> Vec<u8> {
    let mut pieces = vec![1; list.len() * RECORD];
    for (piece, c) in pieces.chunks_exact_mut(RECORD).zip(list) {
        piece[1..4].copy_from_slice(&[c.kind, c.rank, c.bank].map(|n| n as u8));
        piece[8..16].copy_from_slice(&c.cycle.to_le_bytes());
    }
    pieces
}

/// What a play leaves: the state and the journal.
fn left_by(play: Play) -> (Session, Vec<u8>) {
    let mut state = opened();
    let mut room = room_behind(&state).into_inner();
    play(&mut state, &mut room);
    (state, room)
}

/// A line of the table, once all plays have left the same; each accepts every command or panics.
fn compare_burst(title: &str, list: &[Command], burst: Play, twin: Play) {
    let single: Play = &|state, room| offer_each(state, room, list, checker::offer, 0);
    let left = left_by(twin);
    assert_eq!(left.0.progress.records as usize, list.len() + 1);
    assert!(left == left_by(burst) && left == left_by(single));
    let start = opened();
    let room = room_behind(&start);
    let run = |play: Play| from_start(&start, &mut room.borrow_mut(), list.len(), play);
    BURSTS.compare(
        title,
        201,
        vec![
            contender(LIBRARY, || run(burst)),
            contender(TWIN, || run(twin)),
            contender(SINGLE, || run(single)),
            contender(SOURCE, || source_offers(&[], list)),
        ],
    );
}

pub fn compare_bursts(list: &[Command]) {
    BURSTS.head();
    let pieces = pieces_of(list);
    for size in [1, 4, 16, 64, 256, OFFERS] {
        let twin: Play = &|state, room| {
            for part in list.chunks(size) {
                assert_all(twin::offer_all(state, room, part), part.len());
            }
        };
        let structs: Play = &|state, room| {
            for part in list.chunks(size) {
                assert_all(checker::offer_all(state, room, part), part.len());
            }
        };
        compare_burst(&format!("{size} as structs"), list, structs, twin);
        let in_pieces: Play = &|state, room| {
            for part in pieces.chunks(size * RECORD) {
                let done = checker::offer_pieces(state, room, part);
                assert_all(done, part.len() / RECORD);
            }
        };
        compare_burst(&format!("{size} as pieces"), list, in_pieces, twin);
    }
}
