//! A question for the earliest cycle after ever more records: what it costs does not grow.

use crate::{contender, opened, played, questions, trace, Table, LIBRARY};
use rossinhiu::checker;
use rossinhiu::ffi::Session;
use rossinhiu_model::model::RECORD;
use rossinhiu_speed::dice::Dice;

const FEW: &str = "after 100 records";
const HISTORY: Table = Table {
    what: "Earliest",
    columns: &[FEW],
};

/// The state after an opening and the commands of so many records in all.
fn after(records: usize) -> Session {
    let (mut state, mut dice) = (opened(), Dice(99));
    let mut room = vec![0; records * RECORD];
    for _ in 1..records {
        played(&mut state, &mut room, &mut dice);
    }
    assert_eq!(state.progress.records as usize, records);
    state
}

pub fn compare_history() {
    HISTORY.head();
    let (few, asked) = (after(100), trace());
    for (title, records) in [
        (FEW, 100),
        ("after 10,000 records", 10_000),
        ("after 1,000,000 records", 1_000_000),
    ] {
        let state = after(records);
        HISTORY.compare(
            title,
            201,
            vec![
                contender(LIBRARY, || questions(&state, &asked, checker::earliest)),
                contender(FEW, || questions(&few, &asked, checker::earliest)),
            ],
        );
    }
}
