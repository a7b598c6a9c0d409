//! The library's C functions held against the model: at least 5,000,000 calls, every answer and every byte of the journal; the gaps
//! of as many data sheets; and bursts.
//! ROSSINHIU_CALLS gives another number of calls, ROSSINHIU_SEED the first seed.

use rossinhiu::checker::{self, Console, Said};
use rossinhiu::ffi::{self, Numbers, Part, Session};
use rossinhiu_model::burst_calls::{compare_burst_calls, Checker};
use rossinhiu_model::console as model_console;
use rossinhiu_model::generate::{any_opening, reopened, script, Rng, MOODS, SETTINGS_A};
use rossinhiu_model::listing;
use rossinhiu_model::model::{
    Answer, BurstAnswer, Command, State, Status, LAST_CYCLE, MOST_RECORDS, RECORD, REFAB, REFPB,
};
use rossinhiu_model::sheet::SheetAnswer;
use rossinhiu_model::sheet_calls::compare_gaps_calls;
use rossinhiu_speed::twin;
use std::collections::BTreeMap;
use std::sync::atomic::{AtomicU64, Ordering};
use std::thread;

/// How often each call gave each number; for 7 and an earliest cycle, the gaps too.
type Seen = BTreeMap<(&'static str, u64, u64), u64>;

/// The library and the model side by side, each over a journal of its own.
struct Pair {
    seed: u64,
    rng: Rng,
    session: Session,
    lent: Vec<u8>,
    model: State,
    expected: Vec<u8>,
    calls: u64,
    seen: Seen,
}

impl Pair {
    fn new(seed: u64) -> Pair {
        let mut rng = Rng::new(seed);
        let room = rng.pick(&[1, 40, 120, 160, 200, 240, 280, 320]) * RECORD as u64 + rng.below(64);
        let lent: Vec<u8> = (0..room).map(|_| rng.below(256) as u8).collect();
        Pair {
            seed,
            rng,
            session: checker::fresh(),
            expected: lent.clone(),
            lent,
            model: State::fresh(),
            calls: 0,
            seen: Seen::new(),
        }
    }

    fn saw(&mut self, call: &'static str, number: u64, gap: u64) {
        self.calls += 1;
        *self.seen.entry((call, number, gap)).or_default() += 1;
    }

    /// After a call: the same bytes.
    fn hold<T: PartialEq + std::fmt::Debug>(&self, call: &str, came: T, due: T) {
        let at = (self.seed, self.calls);
        assert_eq!(came, due, "{call}: seed and call {at:?}");
        assert!(
            self.lent == self.expected,
            "{call}: bytes, seed and call {at:?}"
        );
    }

    fn gaps(&mut self) -> [u16; 20] {
        let mut gaps = match self.rng.below(5) {
            0 => [0; 20],
            1 => SETTINGS_A,
            2 => std::array::from_fn(|_| self.rng.below(40) as u16),
            // Small gaps, and a wide window for four activates.
            3 => std::array::from_fn(|i| self.rng.below(6) as u16 + 60 * (i as u16 / 19)),
            _ => std::array::from_fn(|_| self.rng.draw() as u16),
        };
        if self.rng.chance(30) {
            gaps[self.rng.below(20) as usize] = self.rng.pick(&[0, 1, 2, 3, 4, 5, 100, 65_535]);
        }
        gaps
    }

    fn open(&mut self) {
        let bad = self.rng.chance(15);
        let wild = [0, 1, 2, 3, 4, 5, 257, 1 << 32, (1 << 32) + 1, u64::MAX];
        let ratio = if bad {
            self.rng.pick(&wild)
        } else {
            self.rng.pick(&[1, 2, 4])
        };
        let ranks = if bad {
            self.rng.pick(&wild)
        } else {
            self.rng.pick(&[1, 2])
        };
        let mode = if bad {
            self.rng.pick(&wild)
        } else {
            self.rng.pick(&[0, 2, 2])
        };
        let (given, client, gaps) = ((ratio, ranks, mode), self.rng.draw() as u32, self.gaps());
        let came = checker::open(&mut self.session, &mut self.lent, given, client, &gaps);
        let due = self.model.open(&mut self.expected, given, client, gaps);
        self.saw("open", came, 0);
        self.hold("open", came, due);
    }

    fn place(&mut self) -> (u64, u64, u64) {
        let wild = self.rng.chance(2);
        let kind = self
            .rng
            .pick(&[1, 1, 1, 1, 2, 2, 2, 3, 3, 3, 4, 4, 5, 6, 7, 7]);
        let kind = if wild {
            self.rng.pick(&[0, 8, 257, u64::MAX, kind])
        } else {
            kind
        };
        let ranks = u64::from(self.session.terms.opening.ranks.max(1));
        let rank = self.rng.below(ranks);
        let rank = if wild {
            self.rng.pick(&[ranks, 2, 256, u64::MAX, rank])
        } else {
            rank
        };
        let banks = self.rng.pick(&[2, 4, 16]);
        let kind = self.able(kind, rank);
        let bank = if kind == 5 || kind == 6 {
            0
        } else {
            self.rng.below(banks)
        };
        let kind = self.fitting(kind, rank, bank);
        let bank = if wild {
            self.rng.pick(&[15, 16, 1, 256, u64::MAX, bank])
        } else {
            bank
        };
        (kind, rank, bank)
    }

    fn is_open(&self, rank: u64, bank: u64) -> bool {
        self.session.progress.open_banks >> (16 * rank + bank) & 1 == 1
    }

    /// Mostly no refresh of a rank with open banks: they are closed first.
    fn able(&mut self, kind: u64, rank: u64) -> u64 {
        let some = kind == 6 && (0..16).any(|bank| self.is_open(rank % 2, bank));
        if some && self.session.terms.opening.edition > 1 && self.rng.chance(80) {
            return 5;
        }
        kind
    }

    /// Mostly what the bank can do.
    fn fitting(&mut self, kind: u64, rank: u64, bank: u64) -> u64 {
        if self.session.terms.opening.edition < 2 || self.rng.chance(10) {
            return kind;
        }
        match (kind, self.is_open(rank % 2, bank % 16)) {
            (1, true) => self.rng.pick(&[2, 3, 4]),
            (2 | 3, false) => 1,
            (7, true) => 4,
            _ => kind,
        }
    }

    fn ask(&mut self, (kind, rank, bank): (u64, u64, u64)) -> Numbers {
        let came = checker::earliest(&self.session, kind, rank, bank);
        let due = self.model.ask(kind, rank, bank);
        self.saw("earliest", came.number, came.gap);
        self.hold("earliest", as_model(came), due);
        came
    }

    fn offer(&mut self) {
        let (kind, rank, bank) = self.place();
        let near = self.ask((kind, rank, bank)).cycle;
        let last = checker::status(&self.session).last;
        let cycle = match self.rng.below(40) {
            0 => last,
            1 => last.wrapping_sub(self.rng.below(3)),
            2 => last + 1,
            3 => self
                .rng
                .pick(&[LAST_CYCLE, LAST_CYCLE + 1, LAST_CYCLE - 1, u64::MAX]),
            4..=11 => near.wrapping_sub(1),
            12 => near.wrapping_sub(self.rng.below(70)),
            13..=18 => near + self.rng.below(8),
            _ => near,
        };
        let came = checker::offer(&mut self.session, &mut self.lent, kind, rank, bank, cycle);
        let command = Command {
            kind,
            rank,
            bank,
            cycle,
        };
        let due = self.model.offer(&mut self.expected, command);
        self.saw("offer", came.number, came.gap);
        if came.gap != 0 {
            let opening = self.session.terms.opening;
            *self
                .seen
                .entry(("mode", opening.mode.into(), came.gap))
                .or_default() += 1;
            if came.gap == 15 {
                *self
                    .seen
                    .entry(("tRPab", opening.edition.into(), kind))
                    .or_default() += 1;
            }
        }
        if came.number == 12 {
            let edition = self.session.terms.opening.edition;
            *self
                .seen
                .entry(("state", edition.into(), kind))
                .or_default() += 1;
        }
        *self
            .seen
            .entry(("loss", came.number, came.loss.into()))
            .or_default() += 1;
        self.hold("offer", as_model(came), due);
    }

    fn take_back(&mut self) {
        let came = checker::take_back(&mut self.session, &mut self.lent);
        let due = self.model.back(&mut self.expected);
        self.saw("take back", came, 0);
        self.hold("take back", came, due);
    }

    fn status(&mut self) {
        let came = checker::status(&self.session);
        let due = self.model.status();
        let numbers = [came.survivors, came.depth, came.last, came.records];
        let other = [
            due.survivors as u64,
            due.depth,
            due.last,
            due.records as u64,
        ];
        self.saw("status", came.number, 0);
        self.hold(
            "status",
            (came.number, came.client),
            (due.number, due.client),
        );
        self.hold(
            "status",
            (came.opening as usize, numbers),
            (due.opening, other),
        );
    }

    fn stretch(&mut self) {
        let size = match self.rng.below(3) {
            0 => self.lent.len(),
            1 => self.rng.below(self.lent.len() as u64 + 1) as usize,
            _ => (RECORD * self.model.records.len()).min(self.lent.len()),
        };
        let part = checker::stretch(&self.session, size);
        let came = &self.lent[part.start..part.start + part.size];
        let due = self.model.stretch(&self.expected[..size]);
        let held = (due.as_ptr() as usize).wrapping_sub(self.expected.as_ptr() as usize);
        let start = if due.is_empty() { 0 } else { held };
        self.hold("stretch", (part.start, came), (start, due));
        self.saw("stretch", u64::from(part.size > 0), 0);
    }

    /// A mains failure: the journal cut somewhere, or a byte of it changed; then the state is what is restored.
    fn restore(&mut self) {
        let end = RECORD * self.model.records.len();
        let mut bytes = self.lent[..end.min(self.lent.len())].to_vec();
        match self.rng.below(6) {
            0 => bytes.truncate(self.rng.below(bytes.len() as u64 + 1) as usize),
            1 if !bytes.is_empty() => {
                let at = self.rng.below(bytes.len() as u64) as usize;
                bytes[at] ^= 1 << self.rng.below(8);
            }
            2 => bytes.extend((0..self.rng.below(64)).map(|n| n as u8)),
            // The session of another mode or edition, which the journal names: mode 1 and old editions come from old journals alone.
            3 | 4 => {
                let changes = any_opening(&mut self.rng);
                if let Some(found) = reopened(&bytes, &changes) {
                    for (at, byte) in found.pokes {
                        bytes[at] = byte;
                    }
                    bytes.truncate(found.records * RECORD);
                }
            }
            _ => {}
        }
        let (session, number, record) = checker::restore(&bytes);
        let (due, at, model) = State::restore(&bytes);
        self.saw("restore", number, 0);
        self.hold("restore", (number, record), (due, at as u64));
        self.list(&bytes);
        let whole = RECORD * model.records.len();
        if number == 0 || self.rng.chance(5) {
            // A changed byte that is still good goes into the journal too.
            self.lent[..whole].copy_from_slice(&bytes[..whole]);
            self.expected[..whole].copy_from_slice(&bytes[..whole]);
            (self.session, self.model) = (session, model);
        }
    }

    /// The listing of the same bytes, whole or record by record.
    fn list(&mut self, bytes: &[u8]) {
        let due = listing::list(bytes);
        let part = self.rng.pick(&[RECORD, 5 * RECORD, 1000 * RECORD]);
        let (mut session, mut came) = (checker::fresh(), Vec::new());
        let mut out = vec![7; part + 64];
        let mut at = 0;
        loop {
            let end = (at + part).min(bytes.len());
            let last = end == bytes.len();
            let (written, ended) =
                checker::list_part(&mut session, &bytes[at..end], last, &mut out);
            came.extend_from_slice(&out[..written]);
            self.saw("list", u64::from(ended), 0);
            if ended {
                break;
            }
            assert!(!last, "a listing ends with its last part");
            at = end;
        }
        self.hold("list", String::from_utf8(came), String::from_utf8(due));
    }

    fn play(&mut self, calls: u64) {
        if self.rng.chance(96) {
            self.open();
        }
        while self.calls < calls {
            match self.rng.below(1000) {
                0..=5 => self.open(),
                6..=599 => self.offer(),
                600..=749 => {
                    let place = self.place();
                    self.ask(place);
                }
                750..=899 => self.take_back(),
                900..=959 => self.status(),
                960..=979 => self.stretch(),
                _ => self.restore(),
            }
        }
        self.status();
        self.restore();
    }
}

fn number_from(name: &str, default: u64) -> u64 {
    let given = std::env::var(name).ok();
    given.map_or(default, |text| text.parse().expect("a number"))
}

fn calls_wanted() -> u64 {
    number_from("ROSSINHIU_CALLS", 5_000_000)
}

fn first_seed() -> u64 {
    number_from("ROSSINHIU_SEED", 20_260_000)
}

#[test]
fn five_million_calls_as_the_model() {
    let (wanted, first) = (calls_wanted(), first_seed());
    let (next, calls) = (AtomicU64::new(first), AtomicU64::new(0));
    let work = || {
        let mut seen = Seen::new();
        while calls.load(Ordering::Relaxed) < wanted {
            let mut pair = Pair::new(next.fetch_add(1, Ordering::Relaxed));
            pair.play(700);
            calls.fetch_add(pair.calls, Ordering::Relaxed);
            for (what, count) in pair.seen {
                *seen.entry(what).or_default() += count;
            }
        }
        seen
    };
    let threads = thread::available_parallelism().map_or(1, |n| n.get());
    let parts: Vec<Seen> = thread::scope(|scope| {
        let started: Vec<_> = (0..threads).map(|_| scope.spawn(work)).collect();
        started
            .into_iter()
            .map(|t| t.join().expect("a thread's comparison"))
            .collect()
    });
    let mut seen = Seen::new();
    for (what, count) in parts.into_iter().flatten() {
        *seen.entry(what).or_default() += count;
    }
    println!("{} calls: {seen:?}", calls.load(Ordering::Relaxed));
    every_answer_came(&seen);
}

/// Every number that a call can give was given, and with 7 every gap.
fn every_answer_came(seen: &Seen) {
    let calls: [(&str, &[u64]); 7] = [
        ("open", &[0, 9, 10]),
        ("offer", &[0, 1, 2, 3, 4, 5, 6, 7, 9, 12]),
        ("earliest", &[0, 1, 2, 3, 4]),
        ("take back", &[0, 1, 8, 9]),
        ("status", &[0, 1]),
        ("stretch", &[0, 1]),
        ("restore", &[0, 11]),
    ];
    for (call, numbers) in calls {
        for number in numbers {
            let found = seen.keys().any(|(c, n, _)| c == &call && n == number);
            assert!(found, "{call} never gave {number}");
        }
    }
    // The gaps by which the modes differ, each in its modes and in no other.
    for (gap, modes) in [
        (5, 0..1),
        (6, 1..3),
        (7, 1..3),
        (10, 0..1),
        (11, 1..3),
        (12, 1..3),
    ] {
        for mode in 0..3 {
            let came = seen.contains_key(&("mode", mode, gap));
            assert_eq!(came, modes.contains(&mode), "gap {gap} in mode {mode}");
        }
    }
    // REFPB was too early by tRPab since edition 1, and in no edition before it; REFAB, also after a PREAB, in all.
    for (kind, editions) in [(REFPB, 1..3), (REFAB, 0..3)] {
        for edition in 0..3 {
            let came = seen.contains_key(&("tRPab", edition, kind));
            assert_eq!(
                came,
                editions.contains(&edition),
                "kind {kind} in edition {edition}"
            );
        }
    }
    // The state of a bank was wrong for each kind but the precharges, since edition 2.
    for kind in 1..=7 {
        for edition in 0..3 {
            let came = seen.contains_key(&("state", edition, kind));
            let due = edition == 2 && ![4, 5].contains(&kind);
            assert_eq!(came, due, "kind {kind} in edition {edition}");
        }
    }
    // What ratios 2 and 4 can lose, beside 7 and beside nothing else.
    for loss in 0..=4 {
        let beside = |number| seen.contains_key(&("loss", number, loss));
        assert_eq!(beside(7), loss < 4, "loss {loss} beside 7");
        assert_eq!(beside(0), loss == 0, "loss {loss} beside 0");
    }
    for gap in 1..=20 {
        assert!(
            seen.contains_key(&("offer", 7, gap)),
            "no offer was too early by gap {gap}"
        );
        assert!(
            seen.contains_key(&("earliest", 0, gap)),
            "no earliest cycle by gap {gap}"
        );
    }
}

/// The gaps of data sheets: every edge at every gap number, then as many drawn sheets as there are calls above.
#[test]
fn gaps_as_the_model() {
    let call = |tck, times| {
        let came = checker::gaps(tck, &times);
        SheetAnswer {
            number: came.number,
            gap: came.gap_number,
            gaps: came.gaps.gap,
        }
    };
    let asked = compare_gaps_calls(first_seed(), calls_wanted(), call);
    println!(
        "{} data sheets",
        asked.unwrap_or_else(|report| panic!("{report}"))
    );
}

/// The library as the model's comparison of bursts drives it.
struct Library {
    session: Session,
    journal: Vec<u8>,
}

fn as_model(numbers: Numbers) -> Answer {
    Answer {
        number: numbers.number,
        cycle: u128::from(numbers.cycle),
        gap: numbers.gap,
        loss: numbers.loss.into(),
    }
}

fn burst((count, refusal): (u64, Numbers)) -> BurstAnswer {
    BurstAnswer {
        count: count as usize,
        refusal: as_model(refusal),
    }
}

impl Checker for Library {
    fn open(&mut self, settings: (u64, u64, u64), client: u32, gaps: [u16; 20]) -> u64 {
        checker::open(
            &mut self.session,
            &mut self.journal,
            settings,
            client,
            &gaps,
        )
    }

    fn offer(&mut self, one: Command) -> Answer {
        let (session, journal) = (&mut self.session, &mut self.journal);
        as_model(checker::offer(
            session, journal, one.kind, one.rank, one.bank, one.cycle,
        ))
    }

    fn back(&mut self) -> u64 {
        checker::take_back(&mut self.session, &mut self.journal)
    }

    fn poke(&mut self, at: usize, byte: u8) {
        self.journal[at] = byte;
    }

    fn restore(&mut self, bytes: usize) -> (u64, usize) {
        let (session, number, record) = checker::restore(&self.journal[..bytes]);
        self.session = session;
        (number, record as usize)
    }

    fn burst(&mut self, list: &[Command]) -> BurstAnswer {
        let commands: Vec<ffi::Command> = list
            .iter()
            .map(|one| ffi::Command {
                kind: one.kind,
                rank: one.rank,
                bank: one.bank,
                cycle: one.cycle,
            })
            .collect();
        burst(checker::offer_all(
            &mut self.session,
            &mut self.journal,
            &commands,
        ))
    }

    fn burst_bytes(&mut self, pieces: &[u8]) -> BurstAnswer {
        burst(checker::offer_pieces(
            &mut self.session,
            &mut self.journal,
            pieces,
        ))
    }

    fn ask(&self, kind: u64, rank: u64, bank: u64) -> Answer {
        as_model(checker::earliest(&self.session, kind, rank, bank))
    }

    fn status(&self) -> Status {
        let s = checker::status(&self.session);
        Status {
            number: s.number,
            client: s.client,
            opening: s.opening as usize,
            survivors: s.survivors as usize,
            depth: s.depth,
            last: s.last,
            records: s.records as usize,
        }
    }

    fn journal(&self) -> &[u8] {
        &self.journal
    }
}

/// Bursts as structs and as bytes, among openings, offers and take-backs: about as many commands as there are calls above.
#[test]
fn bursts_as_the_model() {
    let fresh = |journal| Library {
        session: checker::fresh(),
        journal,
    };
    let rounds = calls_wanted() / 300;
    let handed = compare_burst_calls(first_seed(), rounds, u64::MAX, fresh);
    println!(
        "{} commands in bursts",
        handed.unwrap_or_else(|report| panic!("{report}"))
    );
}

/// Every field of the library's state stands where the header says: the twin's state after the same calls is the same, field by field.
#[test]
fn the_state_field_by_field() {
    let mut rng = Rng::new(11);
    let mut lent = vec![0; 8000 * RECORD];
    let mut room = lent.clone();
    let (mut session, mut state) = (checker::fresh(), twin::fresh());
    assert_eq!(session, state);
    let gaps = std::array::from_fn(|i| 3 * i as u16 + 1);
    let given = (2, 2, 2);
    for client in [0xABCD_EF01, 0x1234_5678] {
        assert_eq!(
            checker::open(&mut session, &mut lent, given, client, &gaps),
            0
        );
        assert_eq!(twin::open(&mut state, &mut room, given, client, &gaps), 0);
        assert_eq!(session, state);
        for _ in 0..3000 {
            let (kind, rank, bank) = drawn(&mut rng, &state);
            let cycle = twin::earliest(&state, kind, rank, bank).cycle;
            let came = checker::offer(&mut session, &mut lent, kind, rank, bank, cycle);
            assert_eq!(
                came,
                twin::offer(&mut state, &mut room, kind, rank, bank, cycle)
            );
            if rng.chance(10) {
                let came = checker::take_back(&mut session, &mut lent);
                assert_eq!(came, twin::take_back(&mut state, &mut room));
            }
            assert_eq!(session, state);
        }
        assert!(lent == room);
    }
    let used = session.progress.records as usize * RECORD;
    assert_eq!(checker::restore(&lent[..used]).0, state);
    // Every slot that a command can have was used: 7 kinds of 2 ranks, with 16 banks or 1.
    assert_eq!(
        state.last.iter().filter(|stamp| **stamp != 0).count(),
        2 * (5 * 16 + 2)
    );
}

/// Mostly a command that its bank can do.
fn drawn(rng: &mut Rng, state: &Session) -> (u64, u64, u64) {
    loop {
        // A bank is open long enough for each kind to meet it so.
        let kind = match rng.below(40) {
            0 => 5,
            1 => 6,
            _ => rng.pick(&[1, 1, 2, 2, 3, 3, 4, 7]),
        };
        let (rank, bank) = (rng.below(2), rng.below(16));
        let bank = if kind == 5 || kind == 6 { 0 } else { bank };
        let [k, r, b] = [kind - 1, rank, bank].map(|n| n as usize);
        if !twin::wrong_bank(state, k, r, b) || rng.chance(5) {
            return (kind, rank, bank);
        }
    }
}

/// Any bytes are a state value: no call faults, and a refusal hands the same state back.
#[test]
fn any_state_value() {
    let mut rng = Rng::new(12);
    for _ in 0..20_000 {
        let mut session = any_session(&mut rng);
        let before = session;
        let size = rng.below(5) * RECORD as u64 + rng.below(64);
        let mut lent: Vec<u8> = (0..size).map(|n| n as u8).collect();
        let bytes = lent.clone();
        let (kind, rank, bank) = (rng.below(9), rng.below(3), rng.below(17));
        checker::earliest(&session, kind, rank, bank);
        checker::status(&session);
        let part = checker::stretch(&session, lent.len());
        assert!(part.start + part.size <= lent.len());
        let cycle = rng.draw() >> rng.below(64);
        let command = ffi::Command {
            kind,
            rank,
            bank,
            cycle,
        };
        let list = vec![command; rng.below(4) as usize];
        let is_written = match rng.below(5) {
            0 => checker::offer(&mut session, &mut lent, kind, rank, bank, cycle).number == 0,
            1 => checker::take_back(&mut session, &mut lent) == 0,
            2 => checker::offer_all(&mut session, &mut lent, &list).0 > 0,
            3 => checker::offer_pieces(&mut session, &mut lent, &bytes).0 > 0,
            _ => checker::open(&mut session, &mut lent, (1, 1, 2), 9, &SETTINGS_A) == 0,
        };
        if !is_written {
            assert_eq!(session, before);
            assert!(lent == bytes);
        }
    }
}

// The console's language.

/// The answer with its bytes as hexadecimal; none where nothing is printed.
fn answer(said: Said, journal: &[u8]) -> Option<String> {
    let text = String::from_utf8(said.text.to_vec()).expect("plain text");
    let Part { start, size } = said.shown;
    let hex: String = journal[start..start + size]
        .iter()
        .map(|b| format!("{b:02x}"))
        .collect();
    (!text.is_empty()).then_some(text + &hex)
}

/// Scripts of every mood, line by line, in memory and as over a file: the model's answers and the model's bytes.
#[test]
fn lines_as_the_model() {
    for seed in 1..=2 * MOODS.len() as u64 {
        let in_file = seed % 2 == 0;
        let mut model = model_console::Console::new();
        model.in_file = in_file;
        let (mut session, mut journal) = (checker::fresh(), vec![0; model.journal.len()]);
        let mut console = Console::new(journal.len());
        console.in_file = in_file;
        for line in script(seed, 200).lines {
            let front = line.sent.strip_suffix(b"\n");
            let (bytes, ended) = (front.unwrap_or(&line.sent), front.is_some());
            let said = console.line(&mut session, &mut journal, bytes, ended);
            let came = answer(said, &journal);
            assert_eq!(
                came,
                model.line(bytes, ended),
                "seed {seed}, {}",
                bytes.escape_ascii()
            );
            assert_eq!(console.lent, model.lent);
        }
        assert!(journal == model.journal, "seed {seed}");
    }
}

/// Any state value and any line: an answer, and what is shown lies within the journal. A refusal changes nothing.
#[test]
fn any_line_on_any_state_value() {
    let mut rng = Rng::new(13);
    let mut console = Console::new(0);
    for seed in 1..=2 * MOODS.len() as u64 {
        for line in script(seed, 200).lines {
            let size = rng.below(5) * RECORD as u64 + rng.below(64);
            let mut journal: Vec<u8> = (0..size).map(|n| n as u8).collect();
            let (before, bytes) = (any_session(&mut rng), journal.clone());
            let mut session = before;
            console.lent = rng.draw() as usize >> rng.below(64);
            console.in_file = rng.chance(50);
            let said = console.line(&mut session, &mut journal, &line.sent, rng.chance(90));
            let came = answer(said, &journal).unwrap_or_default();
            let is_restored = came.starts_with("restore") || came.starts_with("poke");
            let is_some = came.starts_with("burst ") && !came.starts_with("burst 0 ");
            let is_accepted = ["open 0", "offer 0", "back 0"]
                .iter()
                .any(|a| came.starts_with(a))
                || is_some;
            assert!(
                is_restored || is_accepted || (session == before && journal == bytes),
                "{came}"
            );
            assert!(console.lent <= journal.len());
        }
    }
}

fn any_session(rng: &mut Rng) -> Session {
    let mut session = checker::fresh();
    let mut any = || rng.draw() >> rng.below(64);
    session.last.iter_mut().for_each(|x| *x = any());
    session
        .progress
        .activates
        .iter_mut()
        .for_each(|x| *x = any());
    for entry in &mut session.entries {
        (entry.slot, entry.open_banks) = (any() as u32, any() as u32);
        entry.earlier = any();
        (entry.pushed_out, entry.latest) = (any(), any());
    }
    session.terms.rounded.iter_mut().for_each(|x| *x = any());
    (session.progress.position, session.progress.latest) = (any(), any());
    (session.progress.survivors, session.progress.depth) = (any(), any());
    session.progress.records = any() % 6;
    session.progress.open_banks = any() as u32;
    session.terms.opening.ratio = any() as u8;
    session.terms.opening.ranks = any() as u8;
    session.terms.opening.mode = any() as u8;
    session.terms.opening.edition = any() as u8;
    session.terms.opening.client = any() as u32;
    session.terms.number = any() as u32;
    session.terms.is_open = any() as u8;
    session
}

/// A journal of 16,777,216 records (1 GiB) restores; one more is too long.
#[test]
#[ignore = "takes a gigabyte and a minute: cargo test --release -- --ignored"]
fn a_full_journal() {
    let mut bytes = vec![0; (MOST_RECORDS + 1) * RECORD];
    let mut state = twin::fresh();
    assert_eq!(
        twin::open(&mut state, &mut bytes, (4, 2, 2), 7, &SETTINGS_A),
        0
    );
    // Bank after bank is opened, read, written and closed.
    for n in 0..MOST_RECORDS as u64 - 1 {
        let (kind, rank, bank) = (1 + n % 4, n / 4 % 2, n / 8 % 16);
        let cycle = twin::earliest(&state, kind, rank, bank).cycle;
        twin::offer(&mut state, &mut bytes, kind, rank, bank, cycle);
    }
    let end = MOST_RECORDS * RECORD;
    let (mut session, number, _) = checker::restore(&bytes[..end]);
    assert_eq!((number, session.progress.records), (0, MOST_RECORDS as u64));
    assert_eq!(session, state);
    // The journal is full, however much is lent.
    let came = checker::offer(&mut session, &mut bytes, 1, 0, 0, LAST_CYCLE);
    assert_eq!(came.number, 9);
    // The record behind the last is as good as any: it is one too many.
    bytes.copy_within(0..RECORD, end);
    let (session, number, record) = checker::restore(&bytes);
    assert_eq!((number, record), (9, 0));
    assert_eq!(session, checker::fresh());
}

/// 0 if both commands of a burst were accepted.
fn two_structs(session: &mut Session, lent: &mut [u8], _: &mut [u8]) -> u64 {
    let act = |bank, cycle| ffi::Command {
        kind: 1,
        rank: 0,
        bank,
        cycle,
    };
    let (count, told) = checker::offer_all(session, lent, &[act(3, 200), act(4, 250)]);
    count.abs_diff(2) + told.number
}

/// The same in bytes, with some left over.
fn two_pieces(session: &mut Session, lent: &mut [u8], _: &mut [u8]) -> u64 {
    let mut pieces = [0; 3 * RECORD - 1];
    for (at, bank) in [(0, 3), (RECORD, 4)] {
        (pieces[at + 1], pieces[at + 3], pieces[at + 8]) = (1, bank, 50 + 50 * bank);
    }
    let (count, told) = checker::offer_pieces(session, lent, &pieces);
    count.abs_diff(2) + told.number
}

/// Each call on the stack that the header asks for: one that takes more ends this test's process.
#[test]
fn on_64_kib_of_stack() {
    type Call = fn(&mut Session, &mut [u8], &mut [u8]) -> u64;
    let calls: [Call; 13] = [
        |s, _, _| {
            *s = checker::fresh();
            s.progress.records
        },
        |_, _, _| checker::gaps(625, &[26_250; 20]).number,
        |s, lent, _| checker::open(s, lent, (4, 2, 2), 7, &SETTINGS_A),
        |s, lent, _| checker::offer(s, lent, 1, 0, 3, 100).number,
        two_structs,
        two_pieces,
        |s, _, _| checker::earliest(s, 2, 0, 3).number,
        |s, lent, _| checker::take_back(s, lent),
        |s, _, _| checker::status(s).number,
        |s, lent, _| checker::stretch(s, lent.len()).start as u64,
        |s, lent, _| {
            let done = checker::restore(&lent[..3 * RECORD]);
            *s = done.0;
            done.1
        },
        |s, lent, out| {
            *s = checker::fresh();
            let (_, ended) = checker::list_part(s, &lent[..3 * RECORD], true, out);
            u64::from(!ended)
        },
        |s, lent, _| {
            let line = format!("open 4 2 2 7{}", " 65535".repeat(20));
            let mut console = Console::new(lent.len());
            let said = console.line(s, lent, line.as_bytes(), true);
            u64::from(said.text != b"open 0")
        },
    ];
    for call in calls {
        assert_eq!(with_stack(64, call), 0);
    }
}

/// A call on a thread with so many KiB of stack.
fn with_stack(size: usize, call: impl Fn(&mut Session, &mut [u8], &mut [u8]) -> u64 + Sync) -> u64 {
    let mut session = Box::new(checker::fresh());
    let (mut lent, mut out) = (vec![0; 8 * RECORD], vec![0; 8 * RECORD]);
    checker::open(&mut session, &mut lent, (4, 2, 2), 7, &SETTINGS_A);
    checker::offer(&mut session, &mut lent, 1, 0, 2, 90);
    checker::offer(&mut session, &mut lent, 1, 0, 1, 95);
    thread::scope(|scope| {
        let thread = thread::Builder::new().stack_size(size * 1024);
        let work = || call(&mut session, &mut lent, &mut out);
        thread.spawn_scoped(scope, work).unwrap().join().unwrap()
    })
}
