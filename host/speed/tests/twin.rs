//! The twin looks only at entries that can ask; here every entry is looked at, and the library is asked too.

use rossinhiu::{checker, ffi};
use rossinhiu_model::generate::SETTINGS_A;
use rossinhiu_model::model::RECORD;
use rossinhiu_speed::dice::Dice;
use rossinhiu_speed::twin;

/// Stamps and gaps that meet and tie often, with many zeros among them.
fn any_state(dice: &mut Dice) -> ffi::Session {
    let mut state = twin::fresh();
    twin::open(&mut state, &mut [0; RECORD], (4, 2, 0), 7, &SETTINGS_A);
    state.terms.opening.mode = dice.below(3) as u8;
    state.terms.opening.edition = dice.below(2) as u8;
    let most = [1, 4, 40, 4000, 1 << 40][dice.below(5) as usize];
    for kept in state.last.iter_mut().chain(&mut state.progress.activates) {
        *kept = dice.below(3).min(1) * dice.below(most);
    }
    for gap in &mut state.terms.rounded {
        *gap = dice.below(most.min(65_536));
    }
    state.progress.latest = dice.below(most);
    state
}

/// The latest ask over all entries of the rank: the cycle, and the lowest gap number that asks for it; 0 if none does.
fn full_scan(state: &ffi::Session, kind: usize, rank: usize, bank: usize) -> (u64, u64) {
    let names_none = |kind| kind == 4 || kind == 5;
    let mode = state.terms.opening.mode as usize;
    let edition = state.terms.opening.edition as usize;
    let group = |bank| bank / if mode == 2 { 4 } else { 2 };
    let mut asks = vec![(state.progress.latest, 0)];
    let mut add = |kept: u64, gap: usize| {
        if kept != 0 && gap != 0 {
            asks.push((kept - 1 + state.terms.rounded[gap - 1], gap as u64));
        }
    };
    for i in 0..112 {
        let (first, other) = (i / 16, i % 16);
        let class = if names_none(first) || names_none(kind) {
            2
        } else {
            usize::from(other != bank) + usize::from(group(other) != group(bank))
        };
        let place = (((edition * 3 + mode) * 3 + class) * 7 + first) * 7 + kind;
        add(state.last[rank * 112 + i], twin::TABLE[place].into());
    }
    if kind == 0 {
        add(state.progress.activates[rank * 4 + 3], 20);
    }
    let (cycle, _) = *asks.iter().max().unwrap();
    let named = asks.iter().filter(|ask| ask.0 == cycle).map(|ask| ask.1);
    (cycle, named.min().unwrap())
}

#[test]
fn skipping_gives_what_a_full_scan_gives() {
    let mut dice = Dice(2026);
    for _ in 0..300 {
        let state = any_state(&mut dice);
        for kind in 0..7 {
            let (rank, bank) = (dice.below(2), dice.below(16));
            let bank = if kind == 4 || kind == 5 { 0 } else { bank };
            let came = twin::earliest(&state, kind + 1, rank, bank);
            let full = full_scan(&state, kind as usize, rank as usize, bank as usize);
            assert_eq!((came.number, came.cycle, came.gap), (0, full.0, full.1));
            assert_eq!(came, checker::earliest(&state, kind + 1, rank, bank));
        }
    }
}

#[test]
fn a_burst_is_its_offers() {
    let mut dice = Dice(3);
    let mut opened = twin::fresh();
    twin::open(&mut opened, &mut [0; RECORD], (4, 2, 1), 7, &SETTINGS_A);
    let listed: Vec<_> = (0..100).map(|n| dice.command(2, 40 * n)).collect();
    let (mut single, mut burst, mut library) = (opened, opened, opened);
    let mut rooms = vec![vec![0; 102 * RECORD]; 3];
    let mut from = 0;
    while from < listed.len() {
        let done = twin::offer_all(&mut burst, &mut rooms[0], &listed[from..]);
        let called = checker::offer_all(&mut library, &mut rooms[1], &listed[from..]);
        assert_eq!(done, called);
        for c in &listed[from..from + done.0 as usize] {
            let one = twin::offer(&mut single, &mut rooms[2], c.kind, c.rank, c.bank, c.cycle);
            assert_eq!(one.number, 0);
        }
        assert!(single == burst && library == burst);
        from += done.0 as usize + 1;
    }
    assert!(rooms[0] == rooms[1] && rooms[0] == rooms[2]);
}
