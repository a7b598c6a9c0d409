//! Request 2026-07: commands that the state of their bank lets stand, and those that it doesn't, for scripts, lists and journals.

use super::{Mood, Player, Rng, EDITION_AT};
use crate::burst_calls::{bank_list, burst_line, list_for};
use crate::model::{
    is_open_behind, Command, Record, State, ACT, BANKS, BANKS_JUDGED, LAST_CYCLE, PREAB, PREPB, RD,
    RECORD, REFAB, REFPB, WR,
};

/// A kind, a rank and a bank.
pub type Place = (u64, u64, u64);

/// The banks of a rank that are open, or those that are closed.
pub fn banks_of(state: &State, rank: u64, are_open: bool) -> Vec<u64> {
    let survivors = state.survivors();
    let is_so = |bank: &u64| is_open_behind(&survivors, rank, *bank) == are_open;
    (0..BANKS).filter(is_so).collect()
}

/// This command, or one near it that its bank can do: of the same kind on another bank, or what makes it possible.
pub fn fitted(rng: &mut Rng, state: &State, place: Place) -> Place {
    let (kind, rank, bank) = place;
    if kind == PREPB && rng.chance(50) {
        // One that it closes.
        let open = banks_of(state, rank, true);
        return (PREPB, rank, open.first().map_or(bank, |_| rng.pick(&open)));
    }
    if state.bank_can(kind, rank, bank) {
        return place;
    }
    let others = banks_of(state, rank, kind == RD || kind == WR);
    let (instead, percent) = match kind {
        RD | WR => ((ACT, rank, bank), 40),
        REFAB => ((PREAB, rank, 0), 100),
        _ => ((PREPB, rank, bank), 25),
    };
    if others.is_empty() || rng.chance(percent) {
        return instead;
    }
    // Mostly one beside it, so that the gaps of its group are met.
    let is_near = |other: &u64| other / 4 == bank / 4;
    let near: Vec<u64> = others.iter().copied().filter(is_near).collect();
    let from = if near.is_empty() { &others } else { &near };
    (kind, rank, rng.pick(from))
}

/// What closes the open banks of a rank one by one, each as early as can be, but for this one; nothing where nobody looks at banks.
pub fn closing(state: &State, rank: u64, but: Option<u64>) -> Vec<Command> {
    let mut played = state.clone();
    let mut list = Vec::new();
    let mut open = banks_of(state, rank, true);
    open.retain(|bank| state.judges_banks() && Some(*bank) != but);
    for bank in open {
        let cycle = played.earliest(PREPB, rank, bank).0 as u64;
        let command = Command {
            kind: PREPB,
            rank,
            bank,
            cycle,
        };
        played.records.push(Record::Command(command));
        list.push(command);
    }
    list
}

/// A command of a rank that its bank can't do. Mostly the bank is one that was named before, and often a gap holds it back too.
pub fn wrong_place(rng: &mut Rng, state: &State, rank: u64) -> Option<Place> {
    let survivors = state.survivors();
    let named: Vec<u64> = survivors
        .iter()
        .filter(|s| s.rank == rank && s.kind != PREAB && s.kind != REFAB)
        .map(|s| s.bank)
        .collect();
    let is_held = rng.chance(60);
    for turn in 0..32 {
        let kind = rng.pick(&[ACT, ACT, RD, RD, WR, WR, REFPB, REFPB, REFAB]);
        let bank = match kind {
            REFAB => 0,
            _ if !named.is_empty() && rng.chance(70) => rng.pick(&named),
            _ => rng.below(BANKS),
        };
        let is_wrong = !state.bank_can(kind, rank, bank);
        let is_last = turn > 15 || !is_held;
        if is_wrong && (is_last || state.earliest(kind, rank, bank).1 != 0) {
            return Some((kind, rank, bank));
        }
    }
    None
}

/// A cycle behind the last survivor for a command that its bank can't do: by its gaps it could stand there, or is too early too.
pub fn wrong_cycle(rng: &mut Rng, state: &State, (kind, rank, bank): Place) -> Option<u64> {
    let next = state.survivors().last().map_or(0, |last| last.cycle + 1);
    let earliest = state.earliest(kind, rank, bank).0 as u64;
    let before = earliest.saturating_sub(1).max(next);
    let cycle = rng.pick(&[earliest, earliest + 7, before, before, next]);
    (next <= LAST_CYCLE).then_some(cycle.min(LAST_CYCLE))
}

/// The record of a command in the session in force made one that its bank can't do, though no gap holds it back: the record's number,
/// and what its bytes 1 to 3 are to be.
fn wrong_record(rng: &mut Rng, state: &State) -> Option<(usize, [u8; 3])> {
    let (opening, settings) = state.session()?;
    let last = state.records.len() - 1;
    // A late one, so that banks may be open before it.
    let least = last.saturating_sub(20).max(opening);
    for _ in 0..24 {
        let number = rng.between(least as u64, last as u64) as usize;
        let Record::Command(Command { cycle, .. }) = state.records[number] else {
            continue;
        };
        let records = state.records[..number].to_vec();
        let before = State { records };
        let rank = rng.below(settings.ranks);
        let (kind, _, bank) = wrong_place(rng, &before, rank)?;
        if before.may_stand(kind, rank, bank, u128::from(cycle)) {
            return Some((number, [kind, rank, bank].map(|n| n as u8)));
        }
    }
    None
}

impl Player {
    /// Whether the next command goes by the state of its bank: nearly always where that is looked at.
    pub(super) fn is_careful(&mut self) -> bool {
        let percent = match self.console.state.judges_banks() {
            true => 97,
            false => self.habits.care,
        };
        self.rng.chance(percent)
    }

    fn any_rank(&mut self) -> u64 {
        self.rng.below(self.ranks())
    }

    /// At its earliest cycle.
    pub(super) fn offer_early(&mut self, place: Place) {
        let (earliest, _) = self.earliest(place);
        self.offer_at(place, earliest);
    }

    /// Closes all banks of a rank but this one, where banks are looked at: one by one, or all at once where none is to stay open.
    pub(super) fn close_banks(&mut self, rank: u64, but: Option<u64>) {
        if !self.console.state.judges_banks() {
            return;
        }
        let list = closing(&self.console.state, rank, but);
        let in_one = but.is_none() && (list.len() > 3 || self.rng.chance(40));
        if in_one && !list.is_empty() {
            return self.offer_early((PREAB, rank, 0));
        }
        for command in list {
            self.offer_early((PREPB, rank, command.bank));
        }
    }

    /// Opens some banks of a rank that are closed.
    fn open_banks(&mut self, rank: u64, count: u64) {
        for _ in 0..count {
            let closed = banks_of(&self.console.state, rank, false);
            if let Some(most) = closed.len().checked_sub(1) {
                let bank = closed[self.rng.between(0, most as u64) as usize];
                self.offer_early((ACT, rank, bank));
            }
        }
    }

    /// What a bank can't do: by its gaps in time, too early too, or not later than the last survivor too.
    pub(super) fn wrong_offer(&mut self) {
        let rank = self.any_rank();
        let Some(place) = wrong_place(&mut self.rng, &self.console.state, rank) else {
            return;
        };
        let last = self.last();
        let behind = wrong_cycle(&mut self.rng, &self.console.state, place);
        let cycle = match self.rng.below(6) {
            0 => last,
            _ => behind.unwrap_or(LAST_CYCLE),
        };
        self.offer_at(place, cycle);
    }

    /// What some banks of a rank can do, open ones and closed ones: each by a command that shows it.
    pub(super) fn show_banks(&mut self, rank: u64, count: u64) {
        for _ in 0..count {
            let are_open = self.rng.chance(50);
            let mut banks = banks_of(&self.console.state, rank, are_open);
            if banks.is_empty() {
                banks = (0..BANKS).collect();
            }
            let kind = self.rng.pick(&[ACT, RD, WR, REFPB]);
            let bank = self.rng.pick(&banks);
            self.offer_early((kind, rank, bank));
        }
        if self.rng.chance(30) {
            self.offer_early((REFAB, rank, 0));
        }
    }

    pub(super) fn banks(&mut self) {
        match self.rng.below(13) {
            0 => self.wrong_offer(),
            1..=3 => self.lone_bank(),
            4..=6 => self.precharge_and_back(),
            7 => self.closed_and_back(),
            8 => self.open_over_banks(),
            9 => self.restore_over_banks(),
            _ => self.wrong_in_a_journal(),
        }
    }

    /// A refresh of all banks while one is open, then when none is; and one of the other rank.
    fn lone_bank(&mut self) {
        let rank = self.any_rank();
        for _ in 0..self.rng.between(1, 3) {
            self.close_banks(rank, None);
            let bank = self.rng.below(BANKS);
            self.offer_early((ACT, rank, bank));
            self.offer_early((REFAB, rank, 0));
        }
        let other = self.ranks() - 1 - rank;
        if other != rank && self.rng.chance(50) {
            self.close_banks(other, None);
            self.offer_early((REFAB, other, 0));
        }
        if self.rng.chance(40) {
            self.close_banks(rank, None);
            self.offer_early((REFAB, rank, 0));
        }
    }

    /// Several banks closed by one command that is taken back, with all that came behind it: often as much as can be taken back.
    fn precharge_and_back(&mut self) {
        let rank = self.any_rank();
        let count = self.rng.between(2, 4);
        self.open_banks(rank, count);
        self.offer_early((PREAB, rank, 0));
        let percent = match self.mood {
            Mood::Deep | Mood::SecondThoughts | Mood::Mixed => 40,
            _ => 20,
        };
        let is_deep = self.forms.bursts && !self.is_short() && self.rng.chance(percent);
        let behind = match is_deep {
            true => self.rng.pick(&[63, 63, 63, 63, 62, 64]),
            false => self.rng.below(4) as usize,
        };
        self.play_behind(behind, is_deep);
        if self.rng.chance(25) {
            self.restore_at(64 * self.count());
        }
        for _ in 0..=behind {
            self.say("back");
        }
        if self.rng.chance(25) {
            self.restore_at(64 * self.count());
        }
        let shown = self.rng.between(2, 6) + 2 * u64::from(is_deep);
        self.show_banks(rank, shown);
    }

    /// So many commands that can stand, in one burst or one by one.
    fn play_behind(&mut self, count: usize, is_burst: bool) {
        let given = (&self.console.state, &self.habits);
        let list = list_for(&mut self.rng, given, count, None, u64::MAX);
        if is_burst {
            let line = burst_line(&mut self.rng, &list);
            self.say(&line);
            return;
        }
        for command in list {
            let place = (command.kind, command.rank, command.bank);
            self.offer_at(place, command.cycle);
        }
    }

    /// Whether there are no lines left for a long act.
    fn is_short(&self) -> bool {
        self.most.saturating_sub(self.lines.len()) < 120
    }

    /// A precharge of a bank that is closed already, taken back.
    fn closed_and_back(&mut self) {
        let rank = self.any_rank();
        let closed = banks_of(&self.console.state, rank, false);
        if closed.is_empty() {
            return;
        }
        let bank = self.rng.pick(&closed);
        self.offer_early((PREPB, rank, bank));
        self.say("back");
        let kind = self.rng.pick(&[RD, WR, ACT]);
        self.offer_early((kind, rank, bank));
    }

    /// Another client opens while banks are open.
    fn open_over_banks(&mut self) {
        let rank = self.any_rank();
        let count = self.rng.between(1, 4);
        self.open_banks(rank, count);
        let open = banks_of(&self.console.state, rank, true);
        let (ratio, _, mode) = self.settings();
        self.open_with(ratio, self.ranks(), mode);
        let Some(bank) = open.get(self.rng.below(4) as usize).or(open.first()) else {
            return;
        };
        let first = self.rng.pick(&[RD, WR, REFAB, ACT]);
        let named = if first == REFAB { 0 } else { *bank };
        self.offer_early((first, rank, named));
        self.show_banks(rank, 2);
    }

    /// A burst of somebody who does not know of banks.
    pub(super) fn bank_burst(&mut self) {
        let length = self.rng.between(1, 9) as usize;
        let list = bank_list(&mut self.rng, &self.console.state, length);
        self.burst(&list);
    }

    /// All that is written is restored, and the banks are as they were.
    fn restore_over_banks(&mut self) {
        let rank = self.any_rank();
        self.open_banks(rank, 1);
        self.restore_at(64 * self.count());
        self.show_banks(rank, 3);
    }

    /// A record of what its bank can't do: bad where banks are looked at, and good in a session of an old edition.
    fn wrong_in_a_journal(&mut self) {
        let Some((number, bytes)) = wrong_record(&mut self.rng, &self.console.state) else {
            return;
        };
        let opening = self.console.state.session().map_or(0, |s| s.0);
        let edition = self.rng.below(BANKS_JUDGED) as u8;
        let own = self.console.journal[RECORD * opening + EDITION_AT];
        let at = RECORD * number + 1;
        let whole = self.console.journal[at..at + 3].to_vec();
        let end = 64 * self.count();
        self.poke_all(at, &bytes);
        self.restore_at(end);
        if u64::from(own) >= BANKS_JUDGED {
            self.poke_all(RECORD * opening + EDITION_AT, &[edition]);
            self.restore_at(at as u64 + 63);
            self.poke_all(RECORD * opening + EDITION_AT, &[own]);
        }
        self.poke_all(at, &whole);
        self.restore_at(end);
    }

    fn poke_all(&mut self, at: usize, bytes: &[u8]) {
        for (at, byte) in (at..).zip(bytes) {
            if self.console.journal[at] != *byte {
                self.say(&format!("poke {at} {byte}"));
            }
        }
    }
}

#[cfg(test)]
mod tests {
    use super::super::*;
    use super::{banks_of, Command, Record, State};
    use crate::burst_calls::wrong::set_edition;
    use crate::console::commands;
    use crate::model::room;
    use std::collections::{BTreeMap, BTreeSet};
    use std::sync::OnceLock;

    const SCRIPTS: u64 = 104;

    /// What closed a bank last, if anything did.
    fn closed_by(state: &State, rank: u64, bank: u64) -> &'static str {
        let mut by = "never opened";
        for s in state.survivors().iter().filter(|s| s.rank == rank) {
            match s.kind {
                ACT if s.bank == bank => by = "open",
                PREPB if s.bank == bank && by == "open" => by = "closed by PREPB",
                PREAB if by == "open" => by = "closed by PREAB",
                _ => {}
            }
        }
        by
    }

    /// What it is that a bank can't do.
    fn case(state: &State, command: &Command) -> String {
        let Command {
            kind, rank, bank, ..
        } = *command;
        let name = NAMES[kind as usize - 1];
        let open = banks_of(state, rank, true);
        match (kind, open.as_slice()) {
            (RD | WR, _) => format!("{name} of a bank {}", closed_by(state, rank, bank)),
            (REFAB, [alone]) => format!("REFAB with bank {alone} open"),
            (REFAB, _) => "REFAB with several banks open".to_string(),
            _ => format!("{name} of an open bank"),
        }
    }

    /// A console, and what its lines come to.
    struct Watch {
        console: Console,
        seen: Vec<String>,
        /// Banks of which something is to be shown, by rank and number.
        marks: BTreeMap<(u64, u64), BTreeSet<&'static str>>,
        /// Take-backs in a row.
        backs: u64,
    }

    impl Watch {
        fn mark(&mut self, rank: u64, banks: Vec<u64>, what: &'static str) {
            for bank in banks {
                self.marks.entry((rank, bank)).or_default().insert(what);
            }
        }

        fn line(&mut self, line: &Line) {
            let before = self.console.state.clone();
            let records = room(&self.console.journal[..self.console.lent]);
            self.console.feed(&line.sent);
            self.console.finish();
            let answer = String::from_utf8_lossy(line.answer.as_deref().unwrap_or_default());
            let told: Vec<&str> = answer.split(' ').collect();
            let told_at = |place: usize| told[place].parse::<usize>().unwrap();
            self.backs = if answer == "back 0" {
                self.backs + 1
            } else {
                0
            };
            match told[0] {
                "offer" => self.commands(line, before, (0, told_at(1)), records),
                "burst" => self.commands(line, before, (told_at(1), told_at(2)), records),
                "back" if answer == "back 0" => self.taken_back(&before),
                "open" if answer == "open 0" => self.opened(&before),
                "restore" if answer == "restore 0 0" => self.restored(&before),
                "restore" => self.refused(told_at(2)),
                _ => {}
            }
        }

        /// So many were accepted, and the next was answered with this number.
        fn commands(
            &mut self,
            line: &Line,
            mut state: State,
            (count, number): (usize, usize),
            records: usize,
        ) {
            let list = commands_of(line);
            let is_burst = line
                .answer
                .as_deref()
                .is_some_and(|a| a.starts_with(b"burst"));
            let call = if is_burst { "burst" } else { "offer" };
            for (place, command) in list.iter().take(count + 1).enumerate() {
                let number = if place < count { 0 } else { number as u64 };
                let is_full = state.records.len() >= records;
                self.command(call, &state, command, (number, is_full));
                state.records.push(Record::Command(*command));
            }
        }

        fn command(
            &mut self,
            call: &str,
            state: &State,
            command: &Command,
            (number, is_full): (u64, bool),
        ) {
            let Some((_, opening)) = state
                .session()
                .filter(|_| ![1, 2, 3, 4, 5].contains(&number))
            else {
                return;
            };
            let Command {
                kind, rank, bank, ..
            } = *command;
            if state.judges_banks() {
                self.marked(command, number);
            }
            if state.bank_can(kind, rank, bank) {
                let is_allowed = number == 0 && state.judges_banks();
                let allowed = allowed(state, command).filter(|_| is_allowed);
                return self.seen.extend(allowed);
            }
            let (session, mode) = (format!("edition {}", opening.edition), opening.mode);
            let case = case(state, command);
            self.seen.extend([
                format!("{session}: {call} {number}, {case}"),
                format!("{session}, mode {mode}: {call} {number}"),
            ]);
            if state.judges_banks() {
                self.order(call, state, command, (number, is_full));
            }
        }

        /// What comes before what, of a command that its bank can't do.
        fn order(
            &mut self,
            call: &str,
            state: &State,
            command: &Command,
            (number, is_full): (u64, bool),
        ) {
            let cycle = u128::from(command.cycle);
            let is_early = !state.may_stand(command.kind, command.rank, command.bank, cycle);
            for (is_so, what) in [
                (number == 6, "6 before 12"),
                (number == 12 && is_early, "12 before 7"),
                (number == 12 && is_full, "12 before 9"),
                (number == 12 && is_full && is_early, "12 before 7 and 9"),
            ] {
                self.seen.extend(is_so.then(|| format!("{call}: {what}")));
            }
        }

        /// What a command shows of banks that are marked. Those that it changes are no more.
        fn marked(&mut self, command: &Command, number: u64) {
            let Command {
                kind, rank, bank, ..
            } = *command;
            let name = match kind {
                RD | WR => "RD or WR",
                _ => NAMES[kind as usize - 1],
            };
            let is_one = ![PREAB, REFAB].contains(&kind);
            let marks = self.marks.iter();
            for ((_, _), what) in marks.filter(|(at, _)| at.0 == rank && (at.1 == bank || !is_one))
            {
                let keys = what.iter().map(|what| format!("{what}: {name} {number}"));
                self.seen.extend(keys);
            }
            if number == 0 && kind == PREAB {
                self.marks.retain(|at, _| at.0 != rank);
            } else if number == 0 && [ACT, PREPB].contains(&kind) {
                self.marks.remove(&(rank, bank));
            }
        }

        fn taken_back(&mut self, before: &State) {
            let survivors = before.survivors();
            let (
                Some(Command {
                    kind, rank, bank, ..
                }),
                true,
            ) = (survivors.last().copied(), before.judges_banks())
            else {
                return;
            };
            let now = self.console.state.clone();
            let has_changed = |(rank, bank): &(u64, u64)| {
                banks_of(&now, *rank, true).contains(bank)
                    != banks_of(before, *rank, true).contains(bank)
            };
            self.marks.retain(|at, _| !has_changed(at));
            let again: Vec<u64> = banks_of(&now, rank, true)
                .into_iter()
                .filter(|bank| banks_of(before, rank, false).contains(bank))
                .collect();
            let closed = banks_of(&now, rank, false);
            if kind == PREPB && again.is_empty() {
                self.mark(rank, vec![bank], "PREPB of a closed bank taken back");
            }
            if kind == PREAB && again.len() > 1 {
                self.mark(rank, closed, "left closed by a PREAB taken back");
                if self.backs == 64 && now.depth() == 0 {
                    self.mark(rank, again.clone(), "opened again at the bottom");
                }
                self.mark(rank, again, "opened again by a PREAB taken back");
            }
        }

        fn opened(&mut self, before: &State) {
            self.marks.clear();
            for rank in 0..2 {
                self.mark(rank, banks_of(before, rank, true), "open before an opening");
            }
        }

        /// What stays of marks is not followed over it.
        fn restored(&mut self, before: &State) {
            let state = self.console.state.clone();
            if *before != state {
                self.marks.clear();
            }
            for rank in 0..2 {
                self.mark(rank, banks_of(&state, rank, true), "open over a restore");
            }
            let edition = state.session().map_or(0, |s| s.1.edition);
            let wrong = wrong_kinds(&state.records);
            let keys = wrong.iter().map(|k| NAMES[*k as usize - 1]);
            let key = |kind| format!("edition {edition}: restore 0 over a wrong {kind}");
            self.seen.extend(keys.map(key));
        }

        /// A record that nothing but the state of its bank makes bad.
        fn refused(&mut self, at: usize) {
            self.marks.clear();
            let journal = &self.console.journal;
            let (_, _, mut before) = State::restore(&journal[..RECORD * at]);
            let record = &journal[RECORD * at..][..RECORD];
            if before.read(record).is_some() || !before.judges_banks() {
                return;
            }
            set_edition(&mut before, 1);
            if let Some(Record::Command(command)) = before.read(record) {
                let name = NAMES[command.kind as usize - 1];
                self.seen.push(format!("restore 11 by a wrong {name}"));
            }
        }
    }

    /// What is accepted, though it looks as if a bank were in the wrong state.
    fn allowed(state: &State, command: &Command) -> Option<String> {
        let Command {
            kind, rank, bank, ..
        } = *command;
        let has_open = |rank| !banks_of(state, rank, true).is_empty();
        match kind {
            REFAB if has_open(1 - rank) => Some("REFAB beside an open rank".to_string()),
            PREPB if state.bank_can(ACT, rank, bank) => Some("PREPB of a closed bank".to_string()),
            PREAB if !has_open(rank) => Some("PREAB of closed banks".to_string()),
            _ => None,
        }
    }

    /// The kinds of the last session's commands that their bank could not do when they came.
    fn wrong_kinds(records: &[Record]) -> BTreeSet<u64> {
        let is_opening = |r: &Record| matches!(r, Record::Opening(_));
        let first = records.iter().rposition(is_opening).unwrap_or(0);
        let (mut tables, mut wrong) = (vec![[0_u32; 2]], BTreeSet::new());
        for record in &records[first..] {
            let mut table = *tables.last().unwrap();
            match record {
                Record::Opening(_) => {}
                Record::TakeBack => drop(tables.pop()),
                Record::Command(c) => {
                    let (rank, bit) = (&mut table[c.rank as usize], 1 << c.bank);
                    let is_wrong = match c.kind {
                        ACT | REFPB => *rank & bit != 0,
                        RD | WR => *rank & bit == 0,
                        REFAB => *rank != 0,
                        _ => false,
                    };
                    wrong.extend(is_wrong.then_some(c.kind));
                    match c.kind {
                        ACT => *rank |= bit,
                        PREPB => *rank &= !bit,
                        PREAB => *rank = 0,
                        _ => {}
                    }
                    tables.push(table);
                }
            }
        }
        wrong
    }

    fn banks_seen(script: &Script) -> Vec<String> {
        let mut watch = Watch {
            console: Console::new(),
            seen: Vec::new(),
            marks: BTreeMap::new(),
            backs: 0,
        };
        script.lines.iter().for_each(|line| watch.line(line));
        watch.seen
    }

    /// What its bank can't do: each case of the request.
    fn wrong_cases() -> Vec<String> {
        let mut cases: Vec<String> = ["ACT of an open bank", "REFPB of an open bank"]
            .map(String::from)
            .to_vec();
        cases.push("REFAB with several banks open".to_string());
        for kind in ["RD", "WR"] {
            for why in ["never opened", "closed by PREPB", "closed by PREAB"] {
                cases.push(format!("{kind} of a bank {why}"));
            }
        }
        cases
    }

    /// What a hundred scripts reach, and how often at least.
    fn due() -> Vec<(String, u64)> {
        let mut due = Vec::new();
        for case in wrong_cases() {
            due.push((format!("edition 2: offer 12, {case}"), 10));
            due.extend([0, 1].map(|e| (format!("edition {e}: offer 0, {case}"), 10)));
        }
        for bank in 0..16 {
            due.push((
                format!("edition 2: offer 12, REFAB with bank {bank} open"),
                2,
            ));
        }
        for mode in 0..3 {
            due.push((format!("edition 2, mode {mode}: offer 12"), 50));
            due.push((format!("edition 2, mode {mode}: burst 12"), 5));
            for edition in [0, 1] {
                due.push((format!("edition {edition}, mode {mode}: offer 0"), 20));
                due.push((format!("edition {edition}, mode {mode}: burst 0"), 5));
            }
        }
        for (what, least) in [("6 before 12", 15), ("12 before 7", 25), ("12 before 9", 5)] {
            due.push((format!("offer: {what}"), least));
        }
        due.push(("burst: 6 before 12".to_string(), 3));
        due.push(("burst: 12 before 7".to_string(), 2));
        for kind in ["ACT", "RD", "WR", "REFPB", "REFAB"] {
            due.push((format!("restore 11 by a wrong {kind}"), 3));
            due.extend([0, 1].map(|e| (format!("edition {e}: restore 0 over a wrong {kind}"), 5)));
        }
        due.extend(marked_due());
        due
    }

    /// Banks in a state that something brought about, and what shows it.
    fn marked_due() -> Vec<(String, u64)> {
        let mut due = Vec::new();
        for (mark, open, least) in [
            ("opened again by a PREAB taken back", true, 10),
            ("opened again at the bottom", true, 3),
            ("left closed by a PREAB taken back", false, 10),
            ("PREPB of a closed bank taken back", false, 3),
            ("open before an opening", false, 5),
            ("open over a restore", true, 10),
        ] {
            let [read, activate] = if open { [0, 12] } else { [12, 0] };
            due.push((format!("{mark}: RD or WR {read}"), least));
            due.push((format!("{mark}: ACT {activate}"), least));
        }
        due.push(("open before an opening: REFAB 0".to_string(), 3));
        due.push(("open over a restore: REFAB 12".to_string(), 5));
        due.push((
            "opened again by a PREAB taken back: REFAB 12".to_string(),
            5,
        ));
        for allowed in [
            "REFAB beside an open rank",
            "PREPB of a closed bank",
            "PREAB of closed banks",
        ] {
            due.push((allowed.to_string(), 20));
        }
        due
    }

    fn scripts() -> &'static [Script] {
        static MADE: OnceLock<Vec<Script>> = OnceLock::new();
        MADE.get_or_init(|| (0..SCRIPTS).map(|seed| script(seed, 500)).collect())
    }

    /// Scripts that never meet the state of a bank could not show that it is wrong.
    #[test]
    fn scripts_reach_every_bank_state() {
        let mut seen: BTreeMap<String, u64> = BTreeMap::new();
        for key in scripts().iter().flat_map(banks_seen) {
            *seen.entry(key).or_default() += 1;
        }
        let missing: Vec<(String, u64)> = due()
            .into_iter()
            .filter(|(key, least)| seen.get(key).is_none_or(|n| n < least))
            .collect();
        let counts: Vec<String> = seen.iter().map(|(key, n)| format!("{key}: {n}")).collect();
        assert!(missing.is_empty(), "{missing:?}\n{}", counts.join("\n"));
        // No other refusal where the bank alone is wrong, and none of it in old editions.
        let is_old = |key: &&String| key.starts_with("edition 0") || key.starts_with("edition 1");
        let old: Vec<&String> = seen.keys().filter(is_old).collect();
        let is_12 = |key: &&String| key.contains("offer 12") || key.contains("burst 12");
        assert!(!old.iter().copied().any(|key| is_12(&key)), "{old:?}");
    }

    /// Ways to be wrong about banks.
    #[derive(Clone, Copy, Debug, PartialEq, Eq)]
    enum Way {
        Right,
        PreabClosesBank0,
        PreabClosesBothRanks,
        PrepbClosesNothing,
        RefabLooksAtBank0,
        RefabLooksAtBothRanks,
        BackOfPreabOpensAll,
        BackOfPreabOpensNone,
        BackOfPrepbOpensIt,
        OpeningKeepsBanks,
        PrepbWantsAnOpenBank,
        Before6,
        Behind7,
        Behind9,
        InEdition1,
        Never,
    }
    use Way::*;

    const WRONG: [Way; 15] = [
        PreabClosesBank0,
        PreabClosesBothRanks,
        PrepbClosesNothing,
        RefabLooksAtBank0,
        RefabLooksAtBothRanks,
        BackOfPreabOpensAll,
        BackOfPreabOpensNone,
        BackOfPrepbOpensIt,
        OpeningKeepsBanks,
        PrepbWantsAnOpenBank,
        Before6,
        Behind7,
        Behind9,
        InEdition1,
        Never,
    ];

    type Banks = [[bool; 16]; 2];

    /// What a command makes of the banks.
    fn after(mut banks: Banks, c: &Command, way: Way) -> Banks {
        let (rank, bank) = (c.rank as usize, c.bank as usize);
        match c.kind {
            ACT => banks[rank][bank] = true,
            PREPB if way != PrepbClosesNothing => banks[rank][bank] = false,
            PREAB if way == PreabClosesBank0 => banks[rank][0] = false,
            PREAB if way == PreabClosesBothRanks => banks = [[false; 16]; 2],
            PREAB => banks[rank] = [false; 16],
            _ => {}
        }
        banks
    }

    /// Record by record, and so by another way than the model's.
    fn banks_by(records: &[Record], way: Way) -> Banks {
        let mut banks = [[false; 16]; 2];
        let mut before: Vec<(Command, Banks)> = Vec::new();
        for record in records {
            match record {
                Record::Opening(_) if way == OpeningKeepsBanks => before.clear(),
                Record::Opening(_) => (banks, before) = ([[false; 16]; 2], Vec::new()),
                Record::Command(c) => {
                    before.push((*c, banks));
                    banks = after(banks, c, way);
                }
                Record::TakeBack => {
                    let (c, old) = before.pop().unwrap();
                    let (rank, bank) = (c.rank as usize, c.bank as usize);
                    banks = old;
                    match (c.kind, way) {
                        (PREAB, BackOfPreabOpensAll) => banks[rank] = [true; 16],
                        (PREAB, BackOfPreabOpensNone) => banks[rank] = [false; 16],
                        (PREPB, BackOfPrepbOpensIt) => banks[rank][bank] = true,
                        _ => {}
                    }
                }
            }
        }
        banks
    }

    fn can(state: &State, c: &Command, way: Way) -> bool {
        let banks = banks_by(&state.records, way);
        let (rank, bank) = (c.rank as usize, c.bank as usize);
        let is_open = banks[rank][bank];
        match c.kind {
            ACT | REFPB => !is_open,
            RD | WR => is_open,
            REFAB if way == RefabLooksAtBank0 => !is_open,
            REFAB if way == RefabLooksAtBothRanks => banks == [[false; 16]; 2],
            REFAB => banks[rank] == [false; 16],
            PREPB if way == PrepbWantsAnOpenBank => is_open,
            _ => true,
        }
    }

    /// The number that a program answers a command with that is wrong in this way.
    fn number_by(state: &State, c: &Command, is_full: bool, way: Way) -> u64 {
        let mut without = state.clone();
        let edition = state.session().map_or(0, |s| s.1.edition);
        set_edition(&mut without, edition.min(1));
        let mut lent = vec![0; RECORD * (state.records.len() + 1)];
        let plain = without.offer(&mut lent, *c).number;
        let least = match way {
            InEdition1 => 1,
            Never => 3,
            _ => 2,
        };
        // Another number says that the place is none, or the cycle too late.
        let is_there = [0, 6, 7].contains(&plain);
        let is_wrong = is_there && edition >= least && !can(state, c, way);
        match plain {
            6 if is_wrong && way == Before6 => 12,
            7 if is_wrong && way == Behind7 => 7,
            0 if is_wrong && is_full && way == Behind9 => 9,
            0 | 7 if is_wrong => 12,
            0 if is_full => 9,
            _ => plain,
        }
    }

    /// Whether a program that is wrong in this way answers a script otherwise. Up to there both have the same records.
    fn differs(script: &Script, way: Way) -> bool {
        let mut console = Console::new();
        script.lines.iter().any(|line| {
            let mut state = console.state.clone();
            let records = room(&console.journal[..console.lent]);
            console.feed(&line.sent);
            console.finish();
            let answer = String::from_utf8_lossy(line.answer.as_deref().unwrap_or_default());
            let told: Vec<&str> = answer.split(' ').collect();
            let (count, number) = match told[..] {
                ["offer", number, ..] => ("0", number),
                ["burst", count, number, ..] => (count, number),
                _ => return false,
            };
            let (count, number) = (count.parse().unwrap(), number.parse().unwrap());
            commands_of(line)
                .iter()
                .take(count + 1)
                .enumerate()
                .any(|(place, c)| {
                    let due = if place < count { 0 } else { number };
                    let is_full = state.records.len() >= records;
                    let got = number_by(&state, c, is_full, way);
                    state.records.push(Record::Command(*c));
                    got != due
                })
        })
    }

    fn commands_of(line: &Line) -> Vec<Command> {
        let words = line.sent.split(|b| b" \t\r\n".contains(b));
        let words: Vec<&[u8]> = words.filter(|w| !w.is_empty()).skip(1).collect();
        commands(&words).unwrap()
    }

    /// Each wrong program is found by many of a hundred scripts, and the right one by none.
    #[test]
    fn scripts_tell_wrong_banks() {
        let found = |way| scripts().iter().filter(move |s| differs(s, way));
        assert_eq!(found(Right).count(), 0);
        for way in WRONG {
            assert_eq!(found(way).take(8).count(), 8, "{way:?}");
        }
    }
}
