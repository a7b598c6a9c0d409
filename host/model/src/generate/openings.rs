//! Sessions of every mode and edition: requests 2026-04 and 2026-05. Nobody opens in mode 1 or in an older edition, so such
//! sessions are made of others: bytes of an opening record are poked, and what is good then is restored.

use super::{banks_of, closing, Player, Rng};
use crate::model::{
    Command, Record, State, ACT, LAST_CYCLE, NEWEST_EDITION, PREAB, PREPB, RD, RECORD, REFAB,
    REFPB, WR,
};

/// The modes that a live opening takes.
pub const LIVE_MODES: [u64; 2] = [0, 2];
/// Where the mode stands in an opening record.
pub const MODE_AT: usize = 3;
/// Where its edition stands; what is behind it is spare.
pub const EDITION_AT: usize = 48;

/// A byte of an opening record, and what it is to be.
pub type Change = (usize, u8);

/// A journal whose last opening says something else.
pub struct Reopened {
    /// What is to be poked, at which places of the journal.
    pub pokes: Vec<(usize, u8)>,
    /// How many of its records are good then: a command behind the opening may be too early.
    pub records: usize,
}

/// None if there is no opening, or if it is bad with these changes.
pub fn reopened(journal: &[u8], changes: &[Change]) -> Option<Reopened> {
    let opening = journal.chunks_exact(RECORD).rposition(|r| r[0] == 1)?;
    let place = |&(at, byte): &Change| (RECORD * opening + at, byte);
    let pokes: Vec<(usize, u8)> = changes.iter().map(place).collect();
    let mut other = journal.to_vec();
    for (at, byte) in &pokes {
        other[*at] = *byte;
    }
    let records = match State::restore(&other) {
        (0, ..) => other.len() / RECORD,
        (_, bad, _) => bad,
    };
    (records > opening).then_some(Reopened { pokes, records })
}

/// The same of the mode alone: where it stands in the journal, and how many records are good.
pub fn in_mode(journal: &[u8], mode: u8) -> Option<(usize, usize)> {
    let found = reopened(journal, &[(MODE_AT, mode)])?;
    Some((found.pokes[0].0, found.records))
}

/// An opening as nobody makes it live any more: in mode 1, of an older edition, or both.
pub fn older(rng: &mut Rng) -> Vec<Change> {
    let mode = (MODE_AT, 1);
    let edition = (EDITION_AT, rng.below(NEWEST_EDITION) as u8);
    match rng.below(12) {
        0 | 1 => vec![mode],
        2..=4 => vec![mode, edition],
        _ => vec![edition],
    }
}

/// Any mode and edition that a restore takes.
pub fn any_opening(rng: &mut Rng) -> Vec<Change> {
    let mode = rng.pick(&[0, 1, 1, 2]);
    let edition = rng.between(0, NEWEST_EDITION) as u8;
    vec![(MODE_AT, mode), (EDITION_AT, edition)]
}

/// An edition that nobody knows, or the first spare byte.
pub fn bad_opening(rng: &mut Rng) -> Change {
    let unknown = NEWEST_EDITION as u8 + 1;
    match rng.chance(60) {
        true => (
            EDITION_AT,
            rng.pick(&[unknown, unknown, unknown + 1, 128, 255]),
        ),
        false => (EDITION_AT + 1, rng.pick(&[1, 1, 2, 128, 255])),
    }
}

/// A precharge of a rank, and the kind and bank of a refresh that waits for tRPab behind it from edition 1 on. Mostly no other
/// gap holds that one back for longer. Where banks are looked at, the refresh is one that they can do then.
pub fn precharge_and_refresh(rng: &mut Rng, state: &State, rank: u64) -> (Command, (u64, u64)) {
    let any = rng.below(16);
    let open = banks_of(state, rank, true);
    let bank = match open.first().filter(|_| rng.chance(70)) {
        Some(_) => rng.pick(&open),
        None => any,
    };
    let pairs = [((PREPB, bank), (REFAB, 0)), ((PREAB, 0), (REFPB, bank))];
    let closes_all = open.iter().all(|other| *other == bank);
    let is_free = closes_all || !state.judges_banks();
    let (first, refresh) = rng.pick(if is_free { &pairs } else { &pairs[1..] });
    let earliest = |(kind, bank)| state.earliest(kind, rank, bank).0 as u64;
    let mut cycle = earliest(first);
    if rng.chance(75) {
        cycle = cycle.max(earliest(refresh));
    }
    let (kind, bank) = first;
    let precharge = Command {
        kind,
        rank,
        bank,
        cycle,
    };
    (precharge, refresh)
}

/// A refresh of a rank that is one cycle too early, behind a precharge and, where banks are looked at, what closes others; none if no gap holds
/// it back or it would be beyond the limit.
pub fn early_refresh(rng: &mut Rng, state: &State, rank: u64) -> Option<Vec<Command>> {
    let open = banks_of(state, rank, true);
    let mut list = closing(state, rank, open.first().copied());
    let mut played = state.clone();
    played
        .records
        .extend(list.iter().copied().map(Record::Command));
    let (first, (kind, bank)) = precharge_and_refresh(rng, &played, rank);
    played.records.push(Record::Command(first));
    let (earliest, gap) = played.earliest(kind, rank, bank);
    let cycle = earliest as u64 - 1;
    let early = Command {
        kind,
        rank,
        bank,
        cycle,
    };
    list.extend([first, early]);
    (gap != 0 && cycle <= LAST_CYCLE).then_some(list)
}

impl Player {
    /// It is refused, and the session before stays in force.
    pub(super) fn open_in_mode_1(&mut self, ratio: u64, ranks: u64) {
        self.open_with(ratio, ranks, 1);
        match self.rng.below(4) {
            0 => self.ask(),
            1 => {
                self.say("status");
            }
            _ => {}
        }
    }

    /// The opening alone, or a few commands behind it too.
    pub(super) fn begin_older(&mut self) {
        if self.rng.chance(60) {
            let count = self.rng.between(1, 6);
            self.run(count);
        }
        let changes = older(&mut self.rng);
        self.reopen(&changes);
    }

    pub(super) fn other_opening(&mut self) {
        let changes = any_opening(&mut self.rng);
        self.reopen(&changes);
    }

    /// The session in force goes on in another mode or edition, with its records that are good there.
    fn reopen(&mut self, changes: &[Change]) {
        let count = self.count() as usize;
        let front = &self.console.journal[..RECORD * count];
        let Some(Reopened { pokes, records }) = reopened(front, changes) else {
            return;
        };
        for (at, byte) in pokes {
            if self.console.journal[at] != byte || self.rng.chance(10) {
                self.say(&format!("poke {at} {byte}"));
            }
        }
        if self.rng.chance(10) {
            // The live session does not look at what was poked.
            self.ask();
        }
        if records < count && self.rng.chance(50) {
            self.restore_at((RECORD * count) as u64);
        }
        let loose = self.rng.pick(&[0, 0, 1, 63]);
        self.restore_at((RECORD * records) as u64 + loose);
        if self.rng.chance(25) {
            self.say("status");
        }
        match self.rng.below(4) {
            0 => self.columns(),
            1 => self.refreshes(),
            _ => {}
        }
    }

    /// An opening that a restore refuses, or takes in another edition, and put right again.
    pub(super) fn spoil_opening(&mut self) {
        let records = self.console.state.records.iter().enumerate();
        let openings = records.filter(|(_, r)| matches!(r, Record::Opening(_)));
        let openings: Vec<usize> = openings.map(|(number, _)| number).collect();
        let Some(last) = openings.last().copied() else {
            return;
        };
        let any = self.rng.pick(&openings);
        let opening = self.rng.pick(&[last, any]);
        let (place, byte) = match self.rng.chance(75) {
            true => bad_opening(&mut self.rng),
            false => (EDITION_AT, self.rng.between(0, NEWEST_EDITION) as u8),
        };
        let at = RECORD * opening + place;
        let end = 64 * self.count();
        let old = self.console.journal[at];
        self.say(&format!("poke {at} {byte}"));
        let before = (RECORD * opening) as u64;
        let loose = self.rng.pick(&[0, 63]);
        let cut = self.rng.pick(&[end, end, before + 64]);
        self.restore_at(cut + loose);
        match self.rng.below(5) {
            0 => self.ask(),
            1 => {
                self.say("status");
            }
            // What stands behind the cut is not looked at.
            2 => {
                self.restore_at(before);
            }
            _ => {}
        }
        self.say(&format!("poke {at} {old}"));
        self.restore_at(end);
    }

    /// A column command, and what it asks of others: on its bank, beside it in a group of two and of four, and far from it.
    pub(super) fn columns(&mut self) {
        let (kind, rank) = (self.rng.pick(&[RD, WR, WR]), self.rng.below(self.ranks()));
        let bank = self.habits.bank(&mut self.rng, kind);
        let pair_beside = self.rng.pick(&[2, 3]);
        let far = self.rng.between(4, 15);
        let second = self.rng.pick(&[1, pair_beside, far, far]);
        for bank in [bank ^ second, bank] {
            self.open_for_columns(rank, bank);
        }
        let first = (kind, rank, bank);
        let (earliest, _) = self.earliest(first);
        self.offer_at(first, earliest);
        for away in [1, pair_beside, far, 0] {
            let kind = match kind {
                RD => RD,
                _ => self.rng.pick(&[RD, WR]),
            };
            self.column(kind, rank, bank ^ away);
        }
    }

    /// Where banks are looked at, it is open then.
    fn open_for_columns(&mut self, rank: u64, bank: u64) {
        let state = &self.console.state;
        if state.judges_banks() && state.bank_can(ACT, rank, bank) {
            let (earliest, _) = self.earliest((ACT, rank, bank));
            self.offer_at((ACT, rank, bank), earliest);
        }
    }

    /// Asked for, or offered one cycle too early: mostly where the bank can do it.
    fn column(&mut self, kind: u64, rank: u64, bank: u64) {
        let (earliest, gap) = self.earliest((kind, rank, bank));
        let state = &self.console.state;
        let percent = match state.judges_banks() {
            true if state.bank_can(kind, rank, bank) => 60,
            true => 5,
            false => 25,
        };
        let is_early = gap != 0 && self.rng.chance(percent);
        match self.rng.below(4) {
            _ if is_early => {
                self.offer_at((kind, rank, bank), earliest - 1);
            }
            1 => {}
            _ => {
                let kind = self.kind_word(kind);
                self.say(&format!("ask {kind} {rank} {bank}"));
            }
        }
    }

    /// A precharge, and the refresh of the other kind behind it: too early, and at its earliest cycle. Now and then the precharge
    /// is taken back before that, or has another one behind it.
    pub(super) fn refreshes(&mut self) {
        let rank = self.rng.below(self.ranks());
        if self.rng.chance(60) {
            let open = banks_of(&self.console.state, rank, true);
            self.close_banks(rank, open.first().copied());
        }
        let (first, (kind, bank)) = precharge_and_refresh(&mut self.rng, &self.console.state, rank);
        self.offer_at((first.kind, rank, first.bank), first.cycle);
        if first.kind == PREPB && self.rng.chance(25) {
            let another = (PREPB, rank, self.rng.below(16));
            let (earliest, _) = self.earliest(another);
            self.offer_at(another, earliest);
        }
        let refresh = (kind, rank, bank);
        self.early_refresh(refresh);
        match self.rng.below(8) {
            0 => self.back(),
            1 => {
                let other = self.ranks() - 1 - rank;
                self.say(&format!("ask {kind} {other} {bank}"));
            }
            _ => {}
        }
        let (earliest, _) = self.earliest(refresh);
        if self.rng.chance(75) {
            self.offer_at(refresh, earliest);
        }
        if self.forms.bursts && self.rng.chance(15) {
            self.refresh_burst();
        }
    }

    /// Offered before the cycle that a gap asks for, by one or by all that it asks; or asked for.
    fn early_refresh(&mut self, refresh: (u64, u64, u64)) {
        let (earliest, gap) = self.earliest(refresh);
        let next = self.last() + 1;
        if gap != 0 && self.rng.chance(60) {
            let cycle = self.rng.pick(&[earliest - 1, earliest - 1, next]);
            self.offer_at(refresh, cycle);
        } else {
            let (kind, rank, bank) = refresh;
            let kind = self.kind_word(kind);
            self.say(&format!("ask {kind} {rank} {bank}"));
        }
    }
}

/// The pair of request 2026-05 by which the earliest cycle of a command, or its gap, is another one in the newest edition than in edition 0.
#[cfg(test)]
pub(crate) fn new_pair(state: &State, kind: u64, rank: u64, bank: u64) -> Option<&'static str> {
    let [old, new] = [0, NEWEST_EDITION].map(|edition| {
        let mut state = state.clone();
        crate::burst_calls::wrong::set_edition(&mut state, edition);
        state.earliest(kind, rank, bank)
    });
    let pair = match kind {
        REFAB => "PREPB to REFAB",
        _ => "PREAB to REFPB",
    };
    (old != new).then_some(pair)
}

#[cfg(test)]
mod tests {
    use super::super::*;
    use super::new_pair;
    use crate::burst_calls::{wrong::set_edition, EDITIONS};
    use crate::console::commands;
    use crate::harness;
    use crate::model::{binds, class, rounded, Opening};
    use std::collections::BTreeMap;
    use std::sync::OnceLock;

    const SCRIPTS: u64 = 156;
    /// The gaps that the modes have not in common.
    const COLUMN_GAPS: [u64; 6] = [5, 6, 7, 10, 11, 12];

    /// The words of a line that is sent, and the numbers of its answer behind the form's name.
    struct Read<'a> {
        words: Vec<&'a [u8]>,
        call: String,
        told: Vec<u64>,
    }

    fn words(sent: &[u8]) -> Vec<&[u8]> {
        let blank = |b: &u8| b" \t\r\n".contains(b);
        sent.split(blank).filter(|w| !w.is_empty()).collect()
    }

    fn read(line: &Line) -> Read<'_> {
        let words = words(&line.sent);
        let answer = String::from_utf8_lossy(line.answer.as_deref().unwrap_or_default());
        let mut told = answer.split(' ');
        let call = told.next().unwrap_or_default().to_string();
        let told = told.map_while(|w| w.parse().ok()).collect();
        Read { words, call, told }
    }

    /// How two banks lie to one another.
    fn lie(one: u64, other: u64) -> &'static str {
        match [1, 2, 4].map(|banks| one / banks == other / banks) {
            [true, ..] => "same bank",
            [_, true, _] => "same two",
            [_, _, true] => "same four",
            _ => "far",
        }
    }

    /// The column commands that ask for this cycle by this gap, by how their banks lie to the one asked.
    fn askers(state: &State, asked: &Command, (cycle, gap): (u64, u64)) -> Vec<String> {
        let Some((_, opening)) = state.session().filter(|_| COLUMN_GAPS.contains(&gap)) else {
            return Vec::new();
        };
        let wait = rounded(opening.gaps[gap as usize - 1], opening.ratio);
        let mut survivors = state.survivors();
        survivors.retain(|s| {
            let class = class(opening.mode, (s.kind, s.bank), (asked.kind, asked.bank));
            let is_bound = binds(gap, opening.mode, class, s.kind, asked.kind);
            let is_due = u128::from(s.cycle) + wait == u128::from(cycle);
            s.rank == asked.rank && is_bound && is_due
        });
        let mode = opening.mode;
        let key = |s: &Command| format!("mode {mode}: gap {gap}, {}", lie(s.bank, asked.bank));
        survivors.iter().map(key).collect()
    }

    /// The command of a line that an answer is about: the one that was asked for, or offered last.
    fn about(read: &Read) -> Option<Command> {
        let words = read.words.get(1..)?;
        let place = match (read.call.as_str(), read.told.as_slice()) {
            ("ask", [0, ..]) => return Some(commands(&[words, &[b"0".as_slice()]].concat())?[0]),
            ("offer", [0 | 7, ..]) => 0,
            ("burst", [count, 7, ..]) => *count as usize,
            _ => return None,
        };
        Some(commands(words)?[place])
    }

    /// What an opening came to: the mode alone decides where ratio and ranks are good.
    fn of_an_opening(read: &Read) -> Option<String> {
        let number = |word: &[u8]| String::from_utf8_lossy(word).parse::<u64>().ok();
        let [ratio, ranks, mode] = [1, 2, 3].map(|i| number(read.words[i]));
        let is_good = [1, 2, 4].contains(&ratio?) && [1, 2].contains(&ranks?);
        let mode = mode.filter(|mode| is_good && *mode < 4)?;
        Some(format!("open {} in mode {mode}", read.told[0]))
    }

    /// What a refused restore shows of the opening that it names.
    fn of_a_restore(read: &Read, journal: &[u8]) -> Option<String> {
        let [11, at] = read.told[..] else {
            return None;
        };
        let record = &journal[RECORD * at as usize..][..RECORD];
        let is_opening = record[0] == 1;
        let is_unknown = u64::from(record[EDITION_AT]) > NEWEST_EDITION;
        let is_spare = record[EDITION_AT + 1..].iter().all(|b| *b == 0);
        match (is_unknown, is_spare) {
            (true, _) if is_opening => Some("an unknown edition refused".to_string()),
            (_, false) if is_opening => Some("a byte behind the edition refused".to_string()),
            _ => None,
        }
    }

    /// What one line came to, the console given as it was and as it is left.
    fn of_a_line(before: &State, console: &Console, line: &Line) -> Vec<String> {
        let read = read(line);
        let mut seen = Vec::new();
        match read.call.as_str() {
            "open" => seen.extend(of_an_opening(&read)),
            "restore" => seen.extend(of_a_restore(&read, &console.journal)),
            _ => {}
        }
        let state = &console.state;
        let Some((_, Opening { mode, edition, .. })) = state.session() else {
            return seen;
        };
        let number = match read.call.as_str() {
            "offer" | "ask" | "back" | "restore" => read.told.first(),
            "burst" => read.told.get(1),
            _ => None,
        };
        let session = format!("edition {edition}, mode {mode}");
        seen.extend(number.map(|n| format!("{session}: {} {n}", read.call)));
        let Some(asked) = about(&read) else {
            return seen;
        };
        // What a burst was accepted of is played; a single call is judged before it.
        let judged = if read.call == "burst" { state } else { before };
        let number = number.copied().unwrap_or_default();
        if read.call == "ask" || number == 7 {
            let [.., cycle, gap, _] = read.told[..] else {
                return seen;
            };
            seen.extend(askers(judged, &asked, (cycle, gap)));
            seen.push(format!(
                "edition {edition}: {} {number} by gap {gap}",
                read.call
            ));
        }
        let pair = new_pair(judged, asked.kind, asked.rank, asked.bank);
        seen.extend(pair.map(|pair| format!("{session}: {pair} by {} {number}", read.call)));
        seen
    }

    fn scripts() -> &'static [Script] {
        static MADE: OnceLock<Vec<Script>> = OnceLock::new();
        MADE.get_or_init(|| (0..SCRIPTS).map(|seed| script(seed, 500)).collect())
    }

    type Counts = [[usize; 3]; EDITIONS];

    /// What a script's lines come to, and how many offers, questions, take-backs and bursts the sessions of each edition and mode have.
    fn sessions_seen(script: &Script) -> (Vec<String>, Counts) {
        let mut console = Console::new();
        let (mut seen, mut calls) = (Vec::new(), Counts::default());
        for line in &script.lines {
            let before = console.state.clone();
            console.feed(&line.sent);
            seen.extend(of_a_line(&before, &console, line));
            let is_call = ["offer", "ask", "back", "burst"].contains(&read(line).call.as_str());
            if let Some((_, opening)) = console.state.session().filter(|_| is_call) {
                calls[opening.edition as usize][opening.mode as usize] += 1;
            }
        }
        (seen, calls)
    }

    #[derive(Default)]
    struct Summary {
        /// How often each was seen, and in how many scripts.
        seen: BTreeMap<String, (u64, u64)>,
        calls: Counts,
        /// The scripts that have twenty calls of a session.
        scripts_with: Counts,
    }

    impl Summary {
        fn add(&mut self, script: &Script) {
            let (keys, calls) = sessions_seen(script);
            let mut of_script: BTreeMap<String, u64> = BTreeMap::new();
            for key in keys {
                *of_script.entry(key).or_default() += 1;
            }
            for (key, count) in of_script {
                let (all, scripts) = self.seen.entry(key).or_default();
                (*all, *scripts) = (*all + count, *scripts + 1);
            }
            for (edition, mode) in sessions() {
                let calls = calls[edition][mode];
                self.calls[edition][mode] += calls;
                self.scripts_with[edition][mode] += usize::from(calls >= 20);
            }
        }
    }

    /// Every edition and mode.
    fn sessions() -> impl Iterator<Item = (usize, usize)> {
        (0..EDITIONS).flat_map(|edition| [0, 1, 2].map(|mode| (edition, mode)))
    }

    /// The answers that come in the sessions of each edition and mode.
    const ANSWERS: [&str; 11] = [
        "offer 0",
        "offer 7",
        "offer 9",
        "ask 0",
        "back 0",
        "back 8",
        "back 9",
        "burst 0",
        "burst 7",
        "burst 9",
        "restore 0",
    ];

    /// What so many scripts reach, and how often at least.
    fn due() -> Vec<(String, u64)> {
        let mut due = vec![
            ("open 0 in mode 0".to_string(), 200),
            ("open 10 in mode 1".to_string(), 80),
            ("open 0 in mode 2".to_string(), 200),
            ("open 10 in mode 3".to_string(), 5),
            ("an unknown edition refused".to_string(), 50),
            ("a byte behind the edition refused".to_string(), 50),
        ];
        for (edition, mode) in sessions() {
            let session = format!("edition {edition}, mode {mode}");
            due.extend(ANSWERS.map(|answer| (format!("{session}: {answer}"), 5)));
            for pair in ["PREPB to REFAB", "PREAB to REFPB"] {
                // In edition 0 it is what would be refused in edition 1.
                let offer = if edition == 0 { "offer 0" } else { "offer 7" };
                due.extend([offer, "ask 0"].map(|by| (format!("{session}: {pair} by {by}"), 25)));
            }
        }
        for mode in 0..3 {
            for pair in ["PREPB to REFAB", "PREAB to REFPB"] {
                for edition in [1, 2] {
                    let session = format!("edition {edition}, mode {mode}");
                    due.push((format!("{session}: {pair} by burst 7"), 3));
                    due.push((format!("{session}: {pair} by offer 0"), 25));
                }
            }
        }
        due.extend(gaps_due());
        due
    }

    /// Every gap in every edition, and the columns' gaps by how banks lie to one another.
    fn gaps_due() -> Vec<(String, u64)> {
        let mut due = Vec::new();
        // Every gap holds back commands that their banks can do, too.
        for (edition, gap) in (0..EDITIONS).flat_map(|e| (1..=20).map(move |gap| (e, gap))) {
            due.push((format!("edition {edition}: offer 7 by gap {gap}"), 5));
            due.push((format!("edition {edition}: ask 0 by gap {gap}"), 10));
        }
        for lie in ["same bank", "same two", "same four", "far"] {
            for columns in [[5, 6, 7], [10, 11, 12]] {
                for mode in 0..3 {
                    let is_near = lie != "far" && (mode == 2 || lie != "same four");
                    let gap = match (mode, is_near) {
                        (0, _) => columns[0],
                        (_, true) => columns[1],
                        (_, false) => columns[2],
                    };
                    due.push((format!("mode {mode}: gap {gap}, {lie}"), 25));
                }
            }
        }
        due
    }

    /// Scripts that reach little of a mode or an edition could not show a fault in it.
    #[test]
    fn scripts_reach_every_session() {
        let mut summary = Summary::default();
        scripts().iter().for_each(|script| summary.add(script));
        let Summary {
            seen,
            calls,
            scripts_with,
        } = summary;
        println!("calls {calls:?}, scripts with 20 calls {scripts_with:?}");
        let missing: Vec<(String, u64)> = due()
            .into_iter()
            .filter(|(key, least)| seen.get(key).is_none_or(|n| n.0 < *least))
            .collect();
        assert!(missing.is_empty(), "{missing:?}\n{seen:?}");
        let all: usize = calls.iter().flatten().sum();
        assert!(calls.iter().flatten().all(|n| 15 * n >= all), "{calls:?}");
        let least = scripts_with.iter().flatten().min();
        assert!(least.is_some_and(|n| *n >= 40), "{scripts_with:?}");
    }

    /// What the scripts do that the programs are held against: ROSSINHIU_SEED is the first, ROSSINHIU_SCRIPTS how many.
    #[test]
    #[ignore]
    fn counts_of_the_default_scripts() {
        let mut summary = Summary::default();
        let first = harness::seed();
        for seed in first..first + harness::number("ROSSINHIU_SCRIPTS", 300) {
            summary.add(&script(seed, 500));
        }
        let all: usize = summary.calls.iter().flatten().sum();
        for (edition, mode) in sessions() {
            let calls = summary.calls[edition][mode];
            let share = 100.0 * calls as f64 / all as f64;
            println!("edition {edition}, mode {mode}: {calls} calls, {share:.1} of 100");
        }
        let mut refused = 0;
        for (key, (count, scripts)) in &summary.seen {
            if key.contains(" to REF") || key.ends_with(" refused") {
                println!("{key}: {count}, in {scripts} scripts");
            }
            let is_refused = key.starts_with("edition 1") && key.ends_with(" by offer 7");
            refused += if is_refused { *count } else { 0 };
        }
        println!("refreshes that were too early by a new pair: {refused}");
    }

    /// What a console prints for a line, and leaves.
    type Feed = fn(&mut Console, &[u8]) -> Vec<u8>;

    fn right(console: &mut Console, sent: &[u8]) -> Vec<u8> {
        let mut got = console.feed(sent);
        got.extend(console.finish());
        got
    }

    /// By an opening that says something else: a live one, and those that are restored.
    fn judged(
        console: &mut Console,
        sent: &[u8],
        [live, stored]: [fn(&mut Opening); 2],
    ) -> Vec<u8> {
        let got = right(console, sent);
        let records = console.state.records.iter_mut().rev();
        let (count, judge) = match got.as_slice() {
            b"open 0\n" => (1, live),
            _ if got.starts_with(b"restore 0 ") => (usize::MAX, stored),
            _ => (0, stored),
        };
        for record in records.take(count) {
            if let Record::Opening(opening) = record {
                judge(opening);
            }
        }
        got
    }

    /// A restore of openings that are changed before they are read.
    fn restored_as(console: &mut Console, sent: &[u8], change: fn(&mut [u8])) -> Vec<u8> {
        if words(sent).first() != Some(&b"restore".as_slice()) {
            return right(console, sent);
        }
        let whole = console.journal.clone();
        let records = console.journal.chunks_exact_mut(RECORD);
        records.filter(|r| r[0] == 1).for_each(change);
        let got = right(console, sent);
        console.journal = whole;
        got
    }

    /// Single refreshes of one kind by the rules of this edition, whatever the opening says.
    fn refreshes_by((kind, edition): (u64, u64), console: &mut Console, sent: &[u8]) -> Vec<u8> {
        let is_single = matches!(words(sent)[..], [b"offer" | b"ask", word, ..]
            if word == NAMES[kind as usize - 1].as_bytes() || word == kind.to_string().as_bytes());
        let own = console.state.session().map(|s| s.1.edition);
        let Some(own) = own.filter(|_| is_single) else {
            return right(console, sent);
        };
        set_edition(&mut console.state, edition);
        let got = right(console, sent);
        set_edition(&mut console.state, own);
        got
    }

    fn as_it_is(_: &mut Opening) {}

    fn two_as_one(opening: &mut Opening) {
        opening.mode = opening.mode.min(1);
    }

    fn two_as_none(opening: &mut Opening) {
        opening.mode %= 2;
    }

    fn of_edition_0(opening: &mut Opening) {
        opening.edition = 0;
    }

    const WRONG_MODES: [(&str, Feed); 6] = [
        ("groups of two in mode 2", |console, sent| {
            judged(console, sent, [two_as_one, two_as_one])
        }),
        ("mode 2 by mode 0's rules", |console, sent| {
            judged(console, sent, [two_as_none, two_as_none])
        }),
        ("groups of two behind a restore", |console, sent| {
            judged(console, sent, [as_it_is, two_as_one])
        }),
        ("mode 0's rules behind a restore", |console, sent| {
            judged(console, sent, [as_it_is, two_as_none])
        }),
        ("groups of four in mode 1", |console, sent| {
            judged(console, sent, [as_it_is, |o| o.mode = 2 * o.mode.min(1)])
        }),
        ("mode 1 by mode 0's rules", |console, sent| {
            judged(console, sent, [as_it_is, |o| o.mode &= 2])
        }),
    ];

    const WRONG_EDITIONS: [(&str, Feed); 12] = [
        ("edition 0 written", |console, sent| {
            let got = right(console, sent);
            if got == b"open 0\n" {
                let at = RECORD * (console.state.records.len() - 1);
                console.journal[at + EDITION_AT] = 0;
            }
            got
        }),
        ("edition 0 applied live", |console, sent| {
            judged(console, sent, [of_edition_0, as_it_is])
        }),
        ("the edition of the session before", |console, sent| {
            let before = console.state.session().map(|s| s.1.edition);
            let got = right(console, sent);
            if let (b"open 0\n", Some(edition)) = (got.as_slice(), before) {
                set_edition(&mut console.state, edition);
            }
            got
        }),
        ("edition 0 behind a restore", |console, sent| {
            judged(console, sent, [as_it_is, of_edition_0])
        }),
        ("the newest edition behind a restore", |console, sent| {
            judged(console, sent, [as_it_is, |o| o.edition = NEWEST_EDITION])
        }),
        ("the newest edition in a restore", |console, sent| {
            restored_as(console, sent, |r| {
                r[EDITION_AT] = r[EDITION_AT].max(NEWEST_EDITION as u8)
            })
        }),
        ("an unknown edition taken", |console, sent| {
            restored_as(console, sent, |r| {
                r[EDITION_AT] = r[EDITION_AT].min(NEWEST_EDITION as u8)
            })
        }),
        (
            "the byte behind the edition not looked at",
            |console, sent| restored_as(console, sent, |r| r[EDITION_AT + 1] = 0),
        ),
        ("PREPB to REFAB left out", |console, sent| {
            refreshes_by((REFAB, 0), console, sent)
        }),
        ("PREAB to REFPB left out", |console, sent| {
            refreshes_by((REFPB, 0), console, sent)
        }),
        ("PREPB to REFAB in every edition", |console, sent| {
            refreshes_by((REFAB, NEWEST_EDITION), console, sent)
        }),
        ("PREAB to REFPB in every edition", |console, sent| {
            refreshes_by((REFPB, NEWEST_EDITION), console, sent)
        }),
    ];

    /// Whether a console with this feed answers a script otherwise.
    fn differs(script: &Script, feed: Feed) -> bool {
        let mut console = Console::new();
        script.lines.iter().any(|line| {
            let got = feed(&mut console, &line.sent);
            got.strip_suffix(b"\n").unwrap_or_default()
                != line.answer.as_deref().unwrap_or_default()
        })
    }

    /// Each wrong program is found by many scripts, and the right one by none.
    #[test]
    fn scripts_tell_wrong_sessions() {
        let scripts = scripts();
        let found = |feed| scripts.iter().filter(move |s| differs(s, feed));
        assert_eq!(found(right).count(), 0);
        for (name, feed) in WRONG_MODES.into_iter().chain(WRONG_EDITIONS) {
            assert_eq!(found(feed).take(25).count(), 25, "{name}");
        }
    }

    /// Poked to any mode and edition, what is said to be good restores, and the record behind it is bad.
    #[test]
    fn a_journal_with_another_opening() {
        let (mut whole, mut cut) = (0, 0);
        for seed in 0..39 {
            let good = script(seed, 300).good;
            for (mode, edition) in (0..20).map(|n| (n / 4, n % 4)) {
                let found = reopened(&good, &[(MODE_AT, mode), (EDITION_AT, edition)]);
                let is_open = State::restore(&good).2.session().is_some();
                let is_known = u64::from(edition) <= NEWEST_EDITION;
                assert_eq!(found.is_some(), is_open && mode < 3 && is_known);
                let Some(Reopened { pokes, records }) = found else {
                    continue;
                };
                let mut other = good.clone();
                for (at, byte) in pokes {
                    other[at] = byte;
                }
                let (number, _, state) = State::restore(&other[..RECORD * records]);
                assert_eq!(number, 0);
                let held = state.session().map(|s| (s.1.mode, s.1.edition));
                assert_eq!(held, Some((u64::from(mode), u64::from(edition))));
                if RECORD * records < good.len() {
                    assert_eq!(State::restore(&other).1, records);
                    cut += 1;
                } else {
                    whole += 1;
                }
            }
            for mode in 0..=4 {
                let found = reopened(&good, &[(MODE_AT, mode)]);
                let found = found.map(|found| (found.pokes[0].0, found.records));
                assert_eq!(in_mode(&good, mode), found);
            }
        }
        assert!(whole >= 120 && cut >= 20, "{whole} {cut}");
    }

    /// What is drawn for an opening: older ones and any restore, bad ones do not.
    #[test]
    fn drawn_openings() {
        let mut rng = Rng::new(4);
        let mut console = Console::new();
        console.line(opening_a().as_bytes(), true);
        let journal = console.state.journal();
        let mut seen: BTreeMap<String, u64> = BTreeMap::new();
        for _ in 0..300 {
            for (name, changes) in [("older", older(&mut rng)), ("any", any_opening(&mut rng))] {
                let mut record = journal.clone();
                changes.iter().for_each(|(at, byte)| record[*at] = *byte);
                assert_eq!(State::restore(&record).0, 0);
                let key = format!("{name}: mode {}, edition {}", record[3], record[48]);
                *seen.entry(key).or_default() += 1;
            }
            let (at, byte) = bad_opening(&mut rng);
            let mut record = journal.clone();
            record[at] = byte;
            assert_eq!(State::restore(&record).0, 11);
            *seen.entry(format!("bad: byte {at}")).or_default() += 1;
        }
        // Five older ones of an opening in mode 0, every mode and edition, two bad bytes.
        assert!(
            seen.len() == 5 + 9 + 2 && seen.values().all(|n| *n >= 20),
            "{seen:?}"
        );
    }
}
