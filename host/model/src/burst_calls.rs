//! Lists of commands at the edges of request 2026-02, for the console's lines and for single calls, and
//! what holds another program's calls against the model.

use crate::console::LONGEST_LINE;
use crate::generate::{
    any_opening, bad_opening, closing, fitted, older, precharge_and_refresh, reopened, wrong_cycle,
    wrong_place, Change, Habits, Reopened, Rng, LIVE_MODES, NO_KINDS, SETTINGS_A, TOO_LARGE,
};
use crate::model::{
    bytes_of, Answer, BurstAnswer, Command, Record, State, Status, ACT, LAST_CYCLE, NAMES,
    NEWEST_EDITION, PREAB, PREPB, RD, RECORD, REFAB, REFPB, WR,
};
use crate::sheet_calls::NO_NUMBERS;
use std::fmt::{Debug, Display};

/// The largest kind, rank and bank that a piece of bytes can say.
pub const WIDEST_IN_BYTES: u64 = 255;

/// A bank that a kind may name, below so many.
fn any_bank(rng: &mut Rng, kind: u64, banks: u64) -> u64 {
    match kind {
        PREAB | REFAB => 0,
        _ => rng.below(banks),
    }
}

/// A place where the mode or the edition shows behind a command: after a precharge mostly the refresh of the other kind, else a column command on the same
/// bank, within its group or beside it.
pub fn place_behind(rng: &mut Rng, last: &Command) -> (u64, u64, u64) {
    let column = (rng.pick(&[RD, WR]), last.rank, last.bank ^ rng.below(6));
    match last.kind {
        PREPB if rng.chance(85) => (REFAB, last.rank, 0),
        PREAB if rng.chance(85) => (REFPB, last.rank, rng.below(16)),
        _ => column,
    }
}

/// A list that is drawn, and the state as its commands leave it if none is refused.
struct Drawing<'a> {
    list: Vec<Command>,
    played: State,
    habits: &'a Habits,
    /// The largest number that a kind, a rank or a bank may have.
    widest: u64,
}

impl<'a> Drawing<'a> {
    fn new(state: &State, habits: &'a Habits, widest: u64) -> Drawing<'a> {
        Drawing {
            list: Vec::new(),
            played: state.clone(),
            habits,
            widest,
        }
    }

    /// The next command, to be accepted.
    fn take(&mut self, command: Command) {
        self.played.records.push(Record::Command(command));
        self.list.push(command);
    }

    fn ranks(&self) -> u64 {
        self.played.session().map_or(1, |s| s.1.ranks)
    }

    /// No cycle here comes near 64 bits.
    fn earliest(&self, command: &Command) -> (u64, u64) {
        let Command {
            kind, rank, bank, ..
        } = *command;
        let (cycle, gap) = self.played.earliest(kind, rank, bank);
        (cycle as u64, gap)
    }

    fn last(&self) -> Option<u64> {
        self.played.survivors().last().map(|s| s.cycle)
    }

    /// A command of a place that is there, at its earliest cycle. Its bank can do it, where that is looked at.
    fn earliest_command(&self, rng: &mut Rng) -> Command {
        let kind = self.habits.kind(rng);
        let rank = rng.below(self.ranks());
        let place = (kind, rank, self.habits.bank(rng, kind));
        let is_fit = self.played.judges_banks() || rng.chance(self.habits.care);
        let (kind, rank, bank) = match is_fit {
            true => fitted(rng, &self.played, place),
            false => place,
        };
        let mut command = Command {
            kind,
            rank,
            bank,
            cycle: 0,
        };
        command.cycle = self.earliest(&command).0;
        command
    }

    /// Mostly at the earliest cycle, now and then later.
    fn legal(&self, rng: &mut Rng) -> Command {
        let mut command = self.earliest_command(rng);
        command.cycle += match rng.below(60) {
            0 => rng.below(70_000),
            1..=4 => 1,
            5..=8 => rng.below(12),
            _ => 0,
        };
        command
    }

    /// Behind the last survivor, whatever the gaps ask for.
    fn careless(&self, rng: &mut Rng) -> Command {
        let mut command = self.earliest_command(rng);
        let next = self.last().map_or(0, |last| last + 1);
        command.cycle = next + rng.below(12);
        command
    }

    /// A command that is refused with this number, 2 to 7 or 12; with 2 where the state has no place for it.
    fn refused(&self, rng: &mut Rng, number: u64) -> Command {
        let command = self.earliest_command(rng);
        let found = match number {
            6 => self.not_later(rng, command),
            7 => self.too_early(rng),
            12 => self.wrong_bank(rng),
            _ => None,
        };
        found.unwrap_or_else(|| self.spoiled(rng, command, if number > 5 { 2 } else { number }))
    }

    /// Refused with a number from 2 to 5. Often faults of the lines behind it too, so that their order shows.
    fn spoiled(&self, rng: &mut Rng, mut command: Command, number: u64) -> Command {
        let more = rng.chance(30);
        for line in number..=5 {
            if line != number && !(more && rng.chance(50)) {
                continue;
            }
            match line {
                2 => command.kind = self.beyond(rng, &[0, 8, 9, 128, 255], command.kind),
                3 => command.rank = self.beyond(rng, &[self.ranks(), 2, 3, 255], command.rank),
                4 if [PREAB, REFAB].contains(&command.kind) => {
                    command.bank = self.beyond(rng, &[1, 2, 15, 16], 0)
                }
                4 => command.bank = self.beyond(rng, &[16, 17, 31, 128, 255], command.bank),
                _ => {
                    let above = [LAST_CYCLE + 1, LAST_CYCLE + 2, 1 << 48, 1 << 63, u64::MAX];
                    command.cycle = rng.pick(&above);
                }
            }
        }
        command
    }

    /// One of these, or one that is the right one once it is cut down to 8, 16, 32 or 56 bits.
    fn beyond(&self, rng: &mut Rng, near: &[u64], right: u64) -> u64 {
        let high = rng.pick(&[1 << 8, 1 << 16, 1 << 32, 1 << 56, u64::MAX << 8]);
        let any = rng.pick(near);
        let chosen = rng.pick(&[any, right + high, right + high]);
        if chosen <= self.widest {
            chosen
        } else {
            any
        }
    }

    /// What its bank can't do, where that is looked at: by its gaps in time or not.
    fn wrong_bank(&self, rng: &mut Rng) -> Option<Command> {
        let rank = rng.below(self.ranks());
        let place = wrong_place(rng, &self.played, rank).filter(|_| self.played.judges_banks());
        let (kind, rank, bank) = place?;
        let cycle = wrong_cycle(rng, &self.played, (kind, rank, bank))?;
        Some(Command {
            kind,
            rank,
            bank,
            cycle,
        })
    }

    /// Not later than the last survivor; often the bank can't do it either.
    fn not_later(&self, rng: &mut Rng, mut command: Command) -> Option<Command> {
        let last = self.last()?;
        if rng.chance(30) {
            command = self.wrong_bank(rng).unwrap_or(command);
        }
        command.cycle = rng.pick(&[last, last, last.saturating_sub(1), 0]);
        Some(command)
    }

    /// Before the cycle that a gap asks for, by one or by all that it asks. Often the gap is the window of four activates, where it is met.
    fn too_early(&self, rng: &mut Rng) -> Option<Command> {
        let next = self.last()? + 1;
        let mut found = None;
        for _ in 0..24 {
            let mut command = self.earliest_command(rng);
            let (earliest, gap) = self.earliest(&command);
            if gap == 0 || next > LAST_CYCLE {
                continue;
            }
            command.cycle = rng
                .pick(&[earliest - 1, earliest - 1, next])
                .min(LAST_CYCLE);
            found = Some(command);
            if gap == 20 || rng.chance(30) {
                break;
            }
        }
        found
    }

    /// The same by a gap that loses cycles to rounding, where one is met.
    fn early_at_a_loss(&self, rng: &mut Rng) -> Option<Command> {
        let next = self.last()? + 1;
        for _ in 0..24 {
            let command = self.earliest_command(rng);
            let Command {
                kind,
                rank,
                bank,
                cycle,
            } = command;
            if self.played.ask(kind, rank, bank).loss > 0 {
                let cycle = rng.pick(&[cycle - 1, cycle - 1, next]);
                return Some(Command { cycle, ..command });
            }
        }
        None
    }
}

/// A refusal that a list meets: the place of its command, and the number, 2 to 7 or 12.
pub type Refusal = (usize, u64);

/// A list of so many commands for a state, each legal behind those before it but for the refusal, if there is to be one; a refusal for which the
/// state has no place becomes a 2. The list goes on behind it as if that command were not there. No kind, rank or bank is above `widest`.
pub fn list_for(
    rng: &mut Rng,
    (state, habits): (&State, &Habits),
    length: usize,
    refusal: Option<Refusal>,
    widest: u64,
) -> Vec<Command> {
    let mut drawing = Drawing::new(state, habits, widest);
    for place in 0..length {
        match refusal {
            Some((at, number)) if at == place => {
                let command = drawing.refused(rng, number);
                drawing.list.push(command);
            }
            _ => drawing.take(drawing.legal(rng)),
        }
    }
    drawing.list
}

/// So many commands that can stand, then one that is too early by a gap with a loss, where one is met, and the same again.
pub fn losing_list(
    rng: &mut Rng,
    (state, habits): (&State, &Habits),
    length: usize,
) -> Vec<Command> {
    let mut drawing = Drawing::new(state, habits, WIDEST_IN_BYTES);
    for _ in 0..length {
        drawing.take(drawing.legal(rng));
    }
    if let Some(early) = drawing.early_at_a_loss(rng) {
        drawing.list.extend([early, early]);
    }
    drawing.list
}

/// A list of somebody who does not know of gaps: some are too early, wherever that is.
fn careless_list(rng: &mut Rng, (state, habits): (&State, &Habits), length: usize) -> Vec<Command> {
    let mut drawing = Drawing::new(state, habits, WIDEST_IN_BYTES);
    for _ in 0..length {
        drawing.take(drawing.careless(rng));
    }
    drawing.list
}

/// A list of somebody who does not know of banks: each as early as it can be by its gaps, on a few banks, so that open and closed ones are met.
/// What its bank can't do is not there for those behind it.
pub fn bank_list(rng: &mut Rng, state: &State, length: usize) -> Vec<Command> {
    let habits = Habits::any(rng);
    let mut drawing = Drawing::new(state, &habits, WIDEST_IN_BYTES);
    let rank = rng.below(drawing.ranks());
    let first = rng.below(16);
    for _ in 0..length {
        let kind = rng.pick(&[ACT, ACT, RD, WR, PREPB, PREAB, REFAB, REFPB]);
        let bank = match kind {
            PREAB | REFAB => 0,
            _ => first ^ rng.below(3),
        };
        let cycle = drawing.played.earliest(kind, rank, bank).0 as u64;
        let command = Command {
            kind,
            rank,
            bank,
            cycle,
        };
        let can = !drawing.played.judges_banks() || drawing.played.bank_can(kind, rank, bank);
        match can {
            true => drawing.take(command),
            false => drawing.list.push(command),
        }
    }
    drawing.list
}

/// So many activates of a rank, each at its earliest cycle and on a bank that the window of four holds back, where there is one; at the second place
/// named, if it is in the list, one cycle before that. Fewer where banks are looked at and all are open.
pub fn activates_for(
    rng: &mut Rng,
    state: &State,
    rank: u64,
    (length, early): (usize, usize),
) -> Vec<Command> {
    let mut played = state.clone();
    let mut list = Vec::new();
    for place in 0..length {
        let first = rng.below(16);
        let banks = (0..16).map(|bank| (first + bank) % 16);
        let judges = played.judges_banks();
        let closed = banks.filter(|bank| !judges || played.bank_can(ACT, rank, *bank));
        let asked = closed.map(|bank| (bank, played.earliest(ACT, rank, bank)));
        let asked: Vec<(u64, (u128, u64))> = asked.collect();
        let held = asked.iter().find(|(_, (_, gap))| *gap == 20);
        let next = asked.iter().min_by_key(|(_, (cycle, _))| *cycle);
        let Some((bank, (earliest, gap))) = held.or(next) else {
            continue;
        };
        let mut command = Command {
            kind: ACT,
            rank,
            bank: *bank,
            cycle: *earliest as u64,
        };
        if place == early && *gap != 0 {
            command.cycle -= 1;
        } else {
            played.records.push(Record::Command(command));
        }
        list.push(command);
    }
    list
}

/// So many precharges and refreshes of a rank by turns, each refresh of the kind that edition 1 holds back and at its earliest cycle. Often one of them is
/// too early, if a gap holds it back. Before them stands what closes banks that are open.
pub fn refreshes_for(rng: &mut Rng, state: &State, rank: u64, length: usize) -> Vec<Command> {
    let mut list = match rng.chance(70) {
        true => closing(state, rank, None),
        false => Vec::new(),
    };
    let mut played = state.clone();
    played
        .records
        .extend(list.iter().copied().map(Record::Command));
    let any_refresh = list.len() + 1 + 2 * rng.below(length.max(2) as u64 / 2) as usize;
    let length = list.len() + length;
    let early = rng.chance(65).then_some(any_refresh);
    while list.len() < length {
        let (precharge, (kind, bank)) = precharge_and_refresh(rng, &played, rank);
        played.records.push(Record::Command(precharge));
        list.push(precharge);
        let (earliest, gap) = played.earliest(kind, rank, bank);
        let mut refresh = Command {
            kind,
            rank,
            bank,
            cycle: earliest as u64,
        };
        if Some(list.len()) == early && gap != 0 {
            refresh.cycle = rng.pick(&[refresh.cycle - 1, precharge.cycle + 1]);
        } else {
            played.records.push(Record::Command(refresh));
        }
        list.push(refresh);
    }
    list.truncate(length);
    list
}

/// A number that a command of a list can be refused with: 12 only where banks are looked at.
pub fn any_number(rng: &mut Rng, state: &State) -> u64 {
    let number = rng.between(2, 7);
    match state.judges_banks() && rng.chance(30) {
        true => 12,
        false => number,
    }
}

/// The first place, the last, the middle or any.
pub fn any_place(rng: &mut Rng, length: usize) -> usize {
    let any = rng.below(length.max(1) as u64) as usize;
    rng.pick(&[0, length / 2, length.saturating_sub(1), any])
}

fn any_length(rng: &mut Rng, most: usize) -> usize {
    let length = match rng.below(40) {
        0 | 1 => 0,
        2..=5 => 1,
        6..=19 => rng.between(2, 8),
        20..=29 => rng.between(9, 40),
        // Around as many as can be taken back.
        30..=34 => rng.between(60, 70),
        35..=38 => rng.between(71, 140),
        _ => most as u64,
    };
    most.min(length as usize)
}

/// Any list of at most so many commands for a state, no kind, rank or bank above the widest: legal ones at the earliest cycle and later, and often one
/// that is refused, at any place, with others behind it.
pub fn any_burst(rng: &mut Rng, state: &State, most: usize, widest: u64) -> Vec<Command> {
    let habits = Habits::any(rng);
    let length = any_length(rng, most);
    let rank = rng.below(state.session().map_or(1, |s| s.1.ranks));
    match rng.below(12) {
        0 => return careless_list(rng, (state, &habits), length),
        1 => {
            let early = rng.between(4, 16) as usize;
            return activates_for(rng, state, rank, (length.min(16), early));
        }
        2 => return refreshes_for(rng, state, rank, length.min(12)),
        3 => return losing_list(rng, (state, &habits), length.min(12).saturating_sub(2)),
        _ => {}
    }
    let refusal = (any_place(rng, length), any_number(rng, state));
    let refusal = rng.chance(60).then_some(refusal);
    list_for(rng, (state, &habits), length, refusal, widest)
}

/// The list as pieces of 64 bytes. What is not read of a piece is that of a record, or anything.
pub fn pieces_of(rng: &mut Rng, list: &[Command]) -> Vec<u8> {
    let mut bytes = Vec::new();
    for command in list {
        let mut piece = bytes_of(&Record::Command(*command), rng.below(3) as usize);
        if rng.chance(70) {
            for at in (0..1).chain(4..8).chain(16..RECORD) {
                piece[at] = rng.draw() as u8;
            }
        }
        bytes.extend_from_slice(&piece);
    }
    bytes
}

/// A command's words in a line, a blank before each.
fn words_of(command: &Command, kind: impl Display) -> String {
    let Command {
        rank, bank, cycle, ..
    } = command;
    format!(" {kind} {rank} {bank} {cycle}")
}

/// The console's line, with as many of the commands as it may hold.
pub fn burst_line(rng: &mut Rng, list: &[Command]) -> String {
    let mut line = "burst".to_string();
    for command in list {
        let name = NAMES.get((command.kind as usize).wrapping_sub(1));
        let more = match name.filter(|_| rng.chance(50)) {
            Some(name) => words_of(command, name),
            None => words_of(command, command.kind),
        };
        if line.len() + more.len() > LONGEST_LINE {
            break;
        }
        line += &more;
    }
    line
}

/// The most commands that a line can say: of one digit each, whatever comes of them.
pub fn fullest_line(rng: &mut Rng) -> String {
    let mut line = "burst".to_string();
    let most = rng.below(10);
    for place in 0..511 {
        let (kind, rank) = (rng.between(1, 7), rng.below(2));
        let bank = any_bank(rng, kind, 10);
        // Rising as far as one digit goes.
        line += &format!(" {kind} {rank} {bank} {}", most.min(place));
    }
    line
}

/// The line of a list that is nearly of the form. What stands before the fault is as it was.
pub fn malformed_burst_line(rng: &mut Rng, list: &[Command]) -> String {
    let mut words: Vec<String> = burst_line(rng, list).split(' ').map(String::from).collect();
    let some = rng.below(words.len() as u64) as usize;
    let place = rng.pick(&[some, words.len() - 1]);
    let is_kind = place % 4 == 1;
    let is_first = place == 0;
    match rng.below(8) {
        0 | 1 if words.len() > 1 => words.truncate(words.len() - rng.between(1, 3) as usize),
        2 => words.extend(vec!["0".to_string(); rng.between(1, 3) as usize]),
        // How many there are is not said.
        3 => words.insert(1, list.len().to_string()),
        4 if !is_first => words[place] = rng.pick(&TOO_LARGE).to_string(),
        5 if is_kind => words[place] = rng.pick(&NO_KINDS).to_string(),
        5 if !is_first => words[place] = rng.pick(&NO_NUMBERS).to_string(),
        6 if !is_first && !is_kind => words[place] = rng.pick(&NAMES).to_string(),
        _ => {
            let wrong = ["bursts", "Burst", "BURST", "burs", "burst:", "ask", "7"];
            words[0] = rng.pick(&wrong).to_string();
        }
    }
    words.join(" ")
}

/// A program's calls over a journal of its own, which is lent whole to each of them.
pub trait Checker {
    fn open(&mut self, settings: (u64, u64, u64), client: u32, gaps: [u16; 20]) -> u64;
    fn offer(&mut self, command: Command) -> Answer;
    fn back(&mut self) -> u64;
    fn burst(&mut self, list: &[Command]) -> BurstAnswer;
    fn burst_bytes(&mut self, pieces: &[u8]) -> BurstAnswer;
    fn ask(&self, kind: u64, rank: u64, bank: u64) -> Answer;
    fn status(&self) -> Status;
    fn journal(&self) -> &[u8];
    /// Writes one byte of the journal. The state does not see it before a restore.
    fn poke(&mut self, at: usize, byte: u8);
    /// The state becomes what a restore of so many bytes of the journal gives: the number, and the record number of an 11.
    fn restore(&mut self, bytes: usize) -> (u64, usize);
}

/// The model with its journal.
pub struct Model {
    pub state: State,
    pub journal: Vec<u8>,
}

impl Model {
    pub fn new(journal: Vec<u8>) -> Model {
        let state = State::fresh();
        Model { state, journal }
    }
}

impl Checker for Model {
    fn open(&mut self, settings: (u64, u64, u64), client: u32, gaps: [u16; 20]) -> u64 {
        self.state.open(&mut self.journal, settings, client, gaps)
    }
    fn offer(&mut self, command: Command) -> Answer {
        self.state.offer(&mut self.journal, command)
    }
    fn back(&mut self) -> u64 {
        self.state.back(&mut self.journal)
    }
    fn burst(&mut self, list: &[Command]) -> BurstAnswer {
        self.state.burst(&mut self.journal, list)
    }
    fn burst_bytes(&mut self, pieces: &[u8]) -> BurstAnswer {
        self.state.burst_bytes(&mut self.journal, pieces)
    }
    fn ask(&self, kind: u64, rank: u64, bank: u64) -> Answer {
        self.state.ask(kind, rank, bank)
    }
    fn status(&self) -> Status {
        self.state.status()
    }
    fn journal(&self) -> &[u8] {
        &self.journal
    }
    fn poke(&mut self, at: usize, byte: u8) {
        self.journal[at] = byte;
    }
    fn restore(&mut self, bytes: usize) -> (u64, usize) {
        let (number, at, state) = State::restore(&self.journal[..bytes]);
        self.state = state;
        (number, at)
    }
}

/// Gaps at which lists soon meet one another, and gaps that let everything stand.
fn any_gaps(rng: &mut Rng) -> [u16; 20] {
    match rng.below(7) {
        0 | 1 => SETTINGS_A,
        2 => [0; 20],
        3 => [(); 20].map(|()| rng.below(6) as u16),
        4 => [(); 20].map(|()| rng.below(80) as u16),
        5 => {
            // A precharge of all banks is longer than anything else.
            let mut gaps = [(); 20].map(|()| rng.below(40) as u16);
            gaps[14] = rng.between(40, 200) as u16;
            gaps
        }
        _ => [(); 20].map(|()| rng.pick(&[0, 1, 4, 5, 255, 256, 65_532, 65_535])),
    }
}

/// The rule editions that there are.
pub(crate) const EDITIONS: usize = NEWEST_EDITION as usize + 1;

/// The commands that were handed over in lists, and those of them in sessions of each edition and mode; how often an offer, a
/// question and a list told each loss of a gap.
#[derive(Clone, Copy, Debug, Default)]
struct Handed {
    all: u64,
    within: [[u64; 3]; EDITIONS],
    losses: [[u64; 4]; 3],
}

/// Where `Handed` counts the losses of each call.
const OFFERS: usize = 0;
const QUESTIONS: usize = 1;
const LISTS: usize = 2;

/// The model and another program, of the same calls.
struct Pair<C> {
    model: Model,
    other: C,
    widest: u64,
    handed: Handed,
}

fn same<T: PartialEq + Debug>(call: &str, expected: T, got: T) -> Result<(), String> {
    match expected == got {
        true => Ok(()),
        false => Err(format!(
            "{call}\n  expected {expected:?}\n  got      {got:?}"
        )),
    }
}

impl<C: Checker> Pair<C> {
    fn turn(&mut self, rng: &mut Rng) -> Result<(), String> {
        match rng.below(23) {
            0 | 20 => self.open(rng)?,
            21 => self.reopen(rng, any_opening)?,
            22 => self.spoil_opening(rng)?,
            1 | 2 => {
                for _ in 0..rng.pick(&[1, 1, 2, 5, 63, 64, 65, 70]) {
                    same("back", self.model.back(), self.other.back())?;
                }
            }
            3 | 4 => {
                let habits = Habits::any(rng);
                let state = &self.model.state;
                let early = Some((rng.below(2) as usize, 7));
                let list = match rng.below(4) {
                    0 => losing_list(rng, (state, &habits), 0),
                    1 => bank_list(rng, state, 8),
                    2 => list_for(rng, (state, &habits), 2, early, self.widest),
                    _ => any_burst(rng, state, 4, self.widest),
                };
                for command in list {
                    let about = format!("offer{}", words_of(&command, command.kind));
                    let expected = self.model.offer(command);
                    self.count_loss(OFFERS, expected);
                    same(&about, expected, self.other.offer(command))?;
                }
            }
            5..=9 => self.burst_bytes(rng)?,
            _ => self.burst(rng)?,
        }
        self.same_state(rng)
    }

    /// Before some openings one in mode 1, which is refused, and behind some a session in it, or of an older edition, all the same.
    fn open(&mut self, rng: &mut Rng) -> Result<(), String> {
        if rng.chance(10) {
            self.open_in(rng, 1)?;
        }
        let mode = rng.pick(&LIVE_MODES);
        self.open_in(rng, mode)?;
        if rng.chance(75) {
            if rng.chance(50) {
                self.burst(rng)?;
            }
            self.reopen(rng, older)?;
        }
        Ok(())
    }

    fn open_in(&mut self, rng: &mut Rng, mode: u64) -> Result<(), String> {
        let settings = (rng.pick(&[1, 2, 4, 4]), rng.between(1, 2), mode);
        let (client, gaps) = (rng.draw() as u32, any_gaps(rng));
        let expected = self.model.open(settings, client, gaps);
        let about = format!("open {settings:?} {client} {gaps:?}");
        same(&about, expected, self.other.open(settings, client, gaps))
    }

    /// The session in force goes on as an opening says that was written into its place. Of a journal in which a record is bad then, all is
    /// restored now and then, and then what is good.
    fn reopen(
        &mut self,
        rng: &mut Rng,
        opening: fn(&mut Rng) -> Vec<Change>,
    ) -> Result<(), String> {
        let all = self.model.state.records.len();
        let front = &self.model.journal[..RECORD * all];
        let Some(Reopened { pokes, records }) = reopened(front, &opening(rng)) else {
            return Ok(());
        };
        for (at, byte) in pokes {
            self.poke(at, byte);
        }
        if records < all && rng.chance(50) {
            self.restore(RECORD * all)?;
        }
        self.restore(RECORD * records)
    }

    /// The opening of the session in force is made a bad one, which a restore refuses, and put right again.
    fn spoil_opening(&mut self, rng: &mut Rng) -> Result<(), String> {
        let Some((opening, _)) = self.model.state.session() else {
            return Ok(());
        };
        let (place, byte) = bad_opening(rng);
        let at = RECORD * opening + place;
        let end = RECORD * self.model.state.records.len();
        let old = self.model.journal[at];
        self.poke(at, byte);
        self.restore(end)?;
        self.same_state(rng)?;
        self.poke(at, old);
        self.restore(end)
    }

    fn poke(&mut self, at: usize, byte: u8) {
        self.model.poke(at, byte);
        self.other.poke(at, byte);
    }

    fn restore(&mut self, bytes: usize) -> Result<(), String> {
        let about = format!("restore {bytes}");
        same(&about, self.model.restore(bytes), self.other.restore(bytes))
    }

    fn hand(&mut self, commands: usize) {
        self.handed.all += commands as u64;
        if let Some((_, opening)) = self.model.state.session() {
            self.handed.within[opening.edition as usize][opening.mode as usize] += commands as u64;
        }
    }

    /// Of an answer that names a gap.
    fn count_loss(&mut self, call: usize, answer: Answer) {
        if answer.gap != 0 {
            self.handed.losses[call][answer.loss as usize] += 1;
        }
    }

    fn burst(&mut self, rng: &mut Rng) -> Result<(), String> {
        let list = any_burst(rng, &self.model.state, 200, self.widest);
        self.hand(list.len());
        let words = list.iter().map(|c| words_of(c, c.kind));
        let about = format!("burst{}", words.collect::<String>());
        let expected = self.model.burst(&list);
        self.count_loss(LISTS, expected.refusal);
        same(&about, expected, self.other.burst(&list))
    }

    fn burst_bytes(&mut self, rng: &mut Rng) -> Result<(), String> {
        let list = any_burst(rng, &self.model.state, 200, WIDEST_IN_BYTES);
        let mut bytes = pieces_of(rng, &list);
        if rng.chance(60) {
            // The last command is loose bytes then, and not to be looked at.
            bytes.truncate(bytes.len().saturating_sub(rng.between(1, 63) as usize));
        }
        self.hand(bytes.len() / RECORD);
        let about = format!("burst of the {} bytes {bytes:?}", bytes.len());
        let expected = self.model.burst_bytes(&bytes);
        self.count_loss(LISTS, expected.refusal);
        same(&about, expected, self.other.burst_bytes(&bytes))
    }

    /// A place to ask for: any, or one that the last survivor has to do with.
    fn place(&self, rng: &mut Rng) -> (u64, u64, u64) {
        let (kind, rank) = (rng.between(1, 7), rng.below(2));
        let bank = any_bank(rng, kind, 16);
        let survivors = self.model.state.survivors();
        match survivors.last().filter(|_| rng.chance(50)) {
            Some(last) => place_behind(rng, last),
            None => (kind, rank, bank),
        }
    }

    /// Status, some questions and every byte of the journal.
    fn same_state(&mut self, rng: &mut Rng) -> Result<(), String> {
        same("status", self.model.status(), self.other.status())?;
        for _ in 0..5 {
            let (kind, rank, bank) = self.place(rng);
            let expected = self.model.ask(kind, rank, bank);
            self.count_loss(QUESTIONS, expected);
            let about = format!("ask {kind} {rank} {bank}");
            same(&about, expected, self.other.ask(kind, rank, bank))?;
        }
        let (expected, got) = (self.model.journal(), self.other.journal());
        let differs = expected.iter().zip(got).position(|(a, b)| a != b);
        same("the first byte of the journal that differs", None, differs)?;
        same("the journal's length", expected.len(), got.len())
    }
}

/// One round: a fresh program and the model over a journal of its own.
fn play_round<C: Checker>(
    mut rng: Rng,
    widest: u64,
    mut fresh: impl FnMut(Vec<u8>) -> C,
) -> Result<Handed, String> {
    let (few, many) = (rng.between(1, 12), rng.between(60, 400));
    let room = RECORD as u64 * rng.pick(&[few, many, many]) + rng.pick(&[0, 0, 1, 63]);
    // What is not written is not zeros, so that every byte that changes shows.
    let journal: Vec<u8> = (0..room).map(|_| rng.draw() as u8).collect();
    let mut pair = Pair {
        model: Model::new(journal.clone()),
        other: fresh(journal),
        widest,
        handed: Handed::default(),
    };
    for turn in 0..16 {
        let played = match turn {
            0 => pair.burst(&mut rng),
            1 => pair.open(&mut rng),
            _ => pair.turn(&mut rng),
        };
        played.map_err(|fault| format!("turn {turn}: {fault}"))?;
    }
    Ok(pair.handed)
}

/// For tests of single calls in volume: in each round a fresh program over these bytes, then bursts in both forms, offers, take-backs, openings and
/// restores in every mode and edition, and each answer, the state's answers and every byte of the journal held against the model. No kind, rank or bank in a list is
/// above `widest`, at least 255; pieces of bytes stay below 256. Gives how many commands were handed over in lists, or the first difference.
pub fn compare_burst_calls<C: Checker>(
    seed: u64,
    rounds: u64,
    widest: u64,
    mut fresh: impl FnMut(Vec<u8>) -> C,
) -> Result<u64, String> {
    let mut handed = 0;
    for round in 0..rounds {
        let rng = Rng::new(seed.wrapping_add(round));
        let played = play_round(rng, widest, &mut fresh);
        let played = played.map_err(|fault| format!("seed {seed}, round {round}, {fault}"));
        handed += played?.all;
    }
    Ok(handed)
}

/// Bursts, modes, editions and losses that are wrong in one way, so that calls and scripts can be shown to tell.
#[cfg(test)]
pub mod wrong {
    use super::*;
    use crate::generate::{EDITION_AT, MODE_AT};
    use crate::model::{lost, room, Opening};

    /// A list into a state and its journal.
    pub type Burst = fn(&mut State, &mut [u8], &[Command]) -> BurstAnswer;
    /// The commands of pieces of bytes.
    pub type Cut = fn(&[u8]) -> Vec<Command>;

    const NONE: Answer = Answer {
        number: 0,
        cycle: 0,
        gap: 0,
        loss: 0,
    };

    /// Every command offered, the refused ones too: all answers.
    fn all(state: &mut State, lent: &mut [u8], list: &[Command]) -> Vec<Answer> {
        let offer = |command: &Command| state.offer(lent, *command);
        list.iter().map(offer).collect()
    }

    fn refusals(answers: &[Answer]) -> impl DoubleEndedIterator<Item = Answer> + '_ {
        answers.iter().copied().filter(|a| a.number != 0)
    }

    /// Those that go on behind a refusal, or stop before their time.
    const ENDS: [(&str, Burst); 5] = [
        ("goes on after a refusal", |state, lent, list| {
            let answers = all(state, lent, list);
            let count = answers.iter().filter(|a| a.number == 0).count();
            let refusal = refusals(&answers).next().unwrap_or(NONE);
            BurstAnswer { count, refusal }
        }),
        ("goes on, the last refusal told", |state, lent, list| {
            let answers = all(state, lent, list);
            let count = answers.iter().take_while(|a| a.number == 0).count();
            let refusal = refusals(&answers).next_back().unwrap_or(NONE);
            BurstAnswer { count, refusal }
        }),
        ("the last command left out", |state, lent, list| {
            state.burst(lent, &list[..list.len().saturating_sub(1)])
        }),
        ("only 64 looked at", |state, lent, list| {
            state.burst(lent, &list[..list.len().min(64)])
        }),
        ("the first one twice", |state, lent, list| {
            let first = list.iter().take(1);
            let twice: Vec<Command> = first.chain(list).copied().collect();
            state.burst(lent, &twice)
        }),
    ];

    /// Those that leave what they should and tell something else.
    const TOLD: [(&str, Burst); 9] = [
        ("the count one too many", |state, lent, list| {
            let mut told = state.burst(lent, list);
            told.count += usize::from(told.refusal.number != 0);
            told
        }),
        ("the count is the list's", |state, lent, list| {
            let mut told = state.burst(lent, list);
            told.count = list.len();
            told
        }),
        ("a count of 6 bits", |state, lent, list| {
            let mut told = state.burst(lent, list);
            told.count %= 64;
            told
        }),
        ("the refusal's cycle missing", |state, lent, list| {
            let mut told = state.burst(lent, list);
            told.refusal.cycle = 0;
            told
        }),
        ("the refusal's gap missing", |state, lent, list| {
            let mut told = state.burst(lent, list);
            told.refusal.gap = 0;
            told
        }),
        ("the refusal's loss missing", |state, lent, list| {
            let mut told = state.burst(lent, list);
            told.refusal.loss = 0;
            told
        }),
        ("the refused cycle told", |state, lent, list| {
            let mut told = state.burst(lent, list);
            if let Some(refused) = list.get(told.count) {
                told.refusal.cycle = u128::from(refused.cycle);
            }
            told
        }),
        ("the last accepted cycle told", |state, lent, list| {
            let mut told = state.burst(lent, list);
            if told.refusal.number == 0 {
                told.refusal.cycle = u128::from(list.last().map_or(0, |c| c.cycle));
            }
            told
        }),
        (
            "an empty list refused without a session",
            |state, lent, list| {
                let mut told = state.burst(lent, list);
                told.refusal.number = told.refusal.number.max(state.status().number);
                told
            },
        ),
    ];

    /// All or nothing: back to the state before, and often the journal too.
    fn back_to(state: &mut State, before: State, told: BurstAnswer) -> BurstAnswer {
        if told.refusal.number == 0 {
            return told;
        }
        *state = before;
        BurstAnswer { count: 0, ..told }
    }

    /// Those that leave something else.
    const LEFT: [(&str, Burst); 5] = [
        ("all or nothing", |state, lent, list| {
            let (before, bytes) = (state.clone(), lent.to_vec());
            let told = state.burst(lent, list);
            if told.refusal.number != 0 {
                lent.copy_from_slice(&bytes);
            }
            back_to(state, before, told)
        }),
        ("all or nothing, the bytes left", |state, lent, list| {
            let before = state.clone();
            let told = state.burst(lent, list);
            back_to(state, before, told)
        }),
        ("all or nothing, the count told", |state, lent, list| {
            let (before, bytes) = (state.clone(), lent.to_vec());
            let told = state.burst(lent, list);
            if told.refusal.number != 0 {
                lent.copy_from_slice(&bytes);
                *state = before;
            }
            told
        }),
        (
            "a byte of the refused command written",
            |state, lent, list| {
                let told = state.burst(lent, list);
                let place = lent.get_mut(RECORD * state.records.len());
                if let Some(place) = place.filter(|_| told.refusal.number != 0) {
                    *place = 2;
                }
                told
            },
        ),
        (
            "too early not seen behind the first",
            |state, lent, list| {
                for (count, command) in list.iter().enumerate() {
                    let refusal = state.offer(lent, *command);
                    if count > 0 && refusal.number == 7 && state.records.len() < room(lent) {
                        state.records.push(Record::Command(*command));
                    } else if refusal.number != 0 {
                        return BurstAnswer { count, refusal };
                    }
                }
                state.burst(lent, &[])
            },
        ),
    ];

    fn cut_down(list: &[Command], cut: fn(&mut Command)) -> Vec<Command> {
        let mut list = list.to_vec();
        list.iter_mut().for_each(cut);
        list
    }

    /// Those that look at something first, or not at all of it.
    const LOOKED: [(&str, Burst); 7] = [
        ("room for all looked for first", |state, lent, list| {
            let refusal = Answer { number: 9, ..NONE };
            match state.records.len() + list.len() > room(lent) && !list.is_empty() {
                true => BurstAnswer { count: 0, refusal },
                false => state.burst(lent, list),
            }
        }),
        ("no room for nothing refused", |state, lent, list| {
            let mut told = state.burst(lent, list);
            if list.is_empty() && state.records.len() >= room(lent) {
                told.refusal.number = 9;
            }
            told
        }),
        ("all places looked at first", |state, lent, list| {
            let asked = list.iter().map(|c| state.ask(c.kind, c.rank, c.bank));
            match asked.into_iter().find(|a| a.number != 0) {
                Some(refusal) => BurstAnswer { count: 0, refusal },
                None => state.burst(lent, list),
            }
        }),
        ("kinds of 8 bits", |state, lent, list| {
            state.burst(lent, &cut_down(list, |c| c.kind &= 255))
        }),
        ("ranks of 32 bits", |state, lent, list| {
            state.burst(lent, &cut_down(list, |c| c.rank &= (1 << 32) - 1))
        }),
        ("banks of 16 bits", |state, lent, list| {
            state.burst(lent, &cut_down(list, |c| c.bank &= 65_535))
        }),
        ("cycles of 48 bits", |state, lent, list| {
            state.burst(lent, &cut_down(list, |c| c.cycle &= (1 << 48) - 1))
        }),
    ];

    /// Refreshes of one kind by the rules of this edition, whatever the opening says.
    fn refreshes_by(
        (kind, edition): (u64, u64),
        state: &mut State,
        lent: &mut [u8],
        list: &[Command],
    ) -> BurstAnswer {
        let own = state.session().map_or(0, |s| s.1.edition);
        for (count, command) in list.iter().enumerate() {
            set_edition(state, if command.kind == kind { edition } else { own });
            let refusal = state.offer(lent, *command);
            set_edition(state, own);
            if refusal.number != 0 {
                return BurstAnswer { count, refusal };
            }
        }
        state.burst(lent, &[])
    }

    /// Of the session in force.
    pub fn set_edition(state: &mut State, edition: u64) {
        let found = state.records.iter_mut().rev().find_map(|r| match r {
            Record::Opening(opening) => Some(opening),
            _ => None,
        });
        if let Some(opening) = found {
            opening.edition = edition;
        }
    }

    /// Those that know one pair of request 2026-05 only, or one in every edition.
    const REFRESHES: [(&str, Burst); 4] = [
        ("PREPB to REFAB left out", |state, lent, list| {
            refreshes_by((REFAB, 0), state, lent, list)
        }),
        ("PREAB to REFPB left out", |state, lent, list| {
            refreshes_by((REFPB, 0), state, lent, list)
        }),
        ("PREPB to REFAB in every edition", |state, lent, list| {
            refreshes_by((REFAB, NEWEST_EDITION), state, lent, list)
        }),
        ("PREAB to REFPB in every edition", |state, lent, list| {
            refreshes_by((REFPB, NEWEST_EDITION), state, lent, list)
        }),
    ];

    /// Each is right but for what its name says.
    pub fn bursts() -> Vec<(&'static str, Burst)> {
        [ENDS.as_slice(), &TOLD, &LEFT, &LOOKED, &REFRESHES].concat()
    }

    fn whole(pieces: &[u8]) -> Vec<Command> {
        pieces
            .chunks_exact(RECORD)
            .map(Command::in_record)
            .collect()
    }

    /// Each is right but for what its name says.
    pub const CUTS: [(&str, Cut); 7] = [
        ("one more piece read", |pieces| {
            let mut longer = pieces.to_vec();
            longer.resize(pieces.len().div_ceil(RECORD) * RECORD, 0);
            whole(&longer)
        }),
        ("loose bytes make it nothing", |pieces| {
            match pieces.len() % RECORD {
                0 => whole(pieces),
                _ => Vec::new(),
            }
        }),
        ("byte 0 looked at", |pieces| {
            let good = pieces.chunks_exact(RECORD).take_while(|p| p[0] == 2);
            good.map(Command::in_record).collect()
        }),
        ("spare bytes looked at", |pieces| {
            let good = |p: &&[u8]| p[16..].iter().all(|b| *b == 0);
            let pieces = pieces.chunks_exact(RECORD).take_while(good);
            pieces.map(Command::in_record).collect()
        }),
        ("the bank in byte 4", |pieces| {
            let bank = |p: &[u8]| Command {
                bank: u64::from(p[4]),
                ..Command::in_record(p)
            };
            pieces.chunks_exact(RECORD).map(bank).collect()
        }),
        ("cycles of 32 bits", |pieces| {
            cut_down(&whole(pieces), |c| c.cycle &= (1 << 32) - 1)
        }),
        ("cycles the other way round", |pieces| {
            cut_down(&whole(pieces), |c| c.cycle = c.cycle.swap_bytes())
        }),
    ];

    /// An opening by the model.
    pub type Open = fn(&mut Model, (u64, u64, u64), u32, [u16; 20]) -> u64;
    /// What a restore of these bytes gives.
    pub type Restore = fn(&[u8]) -> (u64, usize, State);

    fn open(model: &mut Model, settings: (u64, u64, u64), client: u32, gaps: [u16; 20]) -> u64 {
        model.open(settings, client, gaps)
    }

    /// Every opening, as if it said something else.
    fn judge(state: &mut State, other: fn(&mut Opening)) {
        for record in &mut state.records {
            if let Record::Opening(opening) = record {
                other(opening);
            }
        }
    }

    fn restored(bytes: &[u8], other: fn(&mut Opening)) -> (u64, usize, State) {
        let (number, at, mut state) = State::restore(bytes);
        judge(&mut state, other);
        (number, at, state)
    }

    /// A restore of openings that are changed before they are read.
    fn restored_as(bytes: &[u8], change: fn(&mut [u8])) -> (u64, usize, State) {
        let mut bytes = bytes.to_vec();
        let records = bytes.chunks_exact_mut(RECORD);
        records.filter(|r| r[0] == 1).for_each(change);
        State::restore(&bytes)
    }

    fn two_as_one(opening: &mut Opening) {
        opening.mode = opening.mode.min(1);
    }

    fn two_as_none(opening: &mut Opening) {
        opening.mode %= 2;
    }

    fn of_edition_0(opening: &mut Opening) {
        opening.edition = 0;
    }

    /// Those that refuse, or don't refuse, a mode.
    const REFUSED: [(&str, (Open, Restore)); 3] = [
        (
            "mode 1 opened",
            (
                |model, (ratio, ranks, mode), client, gaps| {
                    let mode = if mode == 1 { 2 } else { mode };
                    model.open((ratio, ranks, mode), client, gaps)
                },
                State::restore,
            ),
        ),
        (
            "mode 2 not opened",
            (
                |model, settings, client, gaps| match settings.2 {
                    2 => 10,
                    _ => model.open(settings, client, gaps),
                },
                State::restore,
            ),
        ),
        (
            "mode 1 not restored",
            (open, |bytes| {
                let (number, at, state) = State::restore(bytes);
                let is_in_1 = |r: &Record| matches!(r, Record::Opening(o) if o.mode == 1);
                match state.records.iter().position(is_in_1) {
                    Some(at) => (11, at, State::fresh()),
                    None => (number, at, state),
                }
            }),
        ),
    ];

    /// Those that go by another mode's rules.
    const JUDGED: [(&str, (Open, Restore)); 5] = [
        (
            "groups of two in mode 2",
            (
                |model, settings, client, gaps| {
                    let answer = model.open(settings, client, gaps);
                    judge(&mut model.state, two_as_one);
                    answer
                },
                |bytes| restored(bytes, two_as_one),
            ),
        ),
        (
            "mode 2 by mode 0's rules",
            (
                |model, settings, client, gaps| {
                    let answer = model.open(settings, client, gaps);
                    judge(&mut model.state, two_as_none);
                    answer
                },
                |bytes| restored(bytes, two_as_none),
            ),
        ),
        (
            "groups of four in mode 1",
            (open, |bytes| {
                restored(bytes, |o| o.mode = 2 * o.mode.min(1))
            }),
        ),
        (
            "mode 1 by mode 0's rules",
            (open, |bytes| restored(bytes, |o| o.mode &= 2)),
        ),
        (
            "mode 0 behind a restore",
            (open, |bytes| restored(bytes, |o| o.mode = 0)),
        ),
    ];

    /// Those that write, take or apply another edition.
    const OF_ANOTHER_EDITION: [(&str, (Open, Restore)); 9] = [
        (
            "edition 0 written",
            (
                |model, settings, client, gaps| {
                    let answer = model.open(settings, client, gaps);
                    if answer == 0 {
                        let at = RECORD * (model.state.records.len() - 1);
                        model.journal[at + EDITION_AT] = 0;
                    }
                    answer
                },
                State::restore,
            ),
        ),
        (
            "edition 0 applied live",
            (
                |model, settings, client, gaps| {
                    let answer = model.open(settings, client, gaps);
                    judge(&mut model.state, of_edition_0);
                    answer
                },
                State::restore,
            ),
        ),
        (
            "the edition of the session before",
            (
                |model, settings, client, gaps| {
                    let before = model.state.session().map(|s| s.1.edition);
                    let answer = model.open(settings, client, gaps);
                    if let Some(Record::Opening(o)) = model.state.records.last_mut() {
                        o.edition = before.unwrap_or(o.edition);
                    }
                    answer
                },
                State::restore,
            ),
        ),
        (
            "edition 0 behind a restore",
            (open, |bytes| restored(bytes, of_edition_0)),
        ),
        (
            "the newest edition behind a restore",
            (open, |bytes| {
                restored(bytes, |o| o.edition = NEWEST_EDITION)
            }),
        ),
        (
            "the newest edition in a restore",
            (open, |bytes| {
                restored_as(bytes, |r| {
                    r[EDITION_AT] = r[EDITION_AT].max(NEWEST_EDITION as u8)
                })
            }),
        ),
        (
            "an unknown edition taken",
            (open, |bytes| {
                restored_as(bytes, |r| {
                    r[EDITION_AT] = r[EDITION_AT].min(NEWEST_EDITION as u8)
                })
            }),
        ),
        (
            "the byte behind the edition not looked at",
            (open, |bytes| restored_as(bytes, |r| r[EDITION_AT + 1] = 0)),
        ),
        (
            "mode 1 in edition 0 only",
            (open, |bytes| {
                restored_as(bytes, |r| {
                    if r[EDITION_AT] > 0 && r[MODE_AT] == 1 {
                        r[MODE_AT] = 3;
                    }
                })
            }),
        ),
    ];

    /// Each is right but for what its name says.
    pub fn openings() -> Vec<(&'static str, (Open, Restore))> {
        [REFUSED.as_slice(), &JUDGED, &OF_ANOTHER_EDITION].concat()
    }

    /// The loss that is told beside an answer: the state that it is an answer of, and the call's name.
    pub type Loss = fn(&State, &str, Answer) -> u64;

    pub fn right_loss(_: &State, _: &str, answer: Answer) -> u64 {
        answer.loss
    }

    /// What a gap loses in the session in force; 0 without a session, and with gap 0.
    fn loss_of(state: &State, gap: u64) -> u64 {
        let session = state.session().filter(|_| gap != 0);
        session.map_or(0, |(_, o)| lost(o.gaps[gap as usize - 1], o.ratio))
    }

    /// A gap and the ratio of the session in force, where an answer names one.
    fn named(state: &State, answer: Answer) -> Option<(u16, u64)> {
        let (_, opening) = state.session().filter(|_| answer.gap != 0)?;
        Some((opening.gaps[answer.gap as usize - 1], opening.ratio))
    }

    /// Those that reckon the loss in another way, or of another gap.
    const RECKONED: [(&str, Loss); 8] = [
        ("the remainder of the gap", |state, _, answer| {
            named(state, answer).map_or(0, |(gap, ratio)| u64::from(gap) % ratio)
        }),
        ("a ratio where it divides the gap", |state, _, answer| {
            let by_one = |(gap, ratio)| ratio - u64::from(gap) % ratio;
            named(state, answer).map_or(0, by_one)
        }),
        ("in controller cycles", |state, _, answer| {
            named(state, answer).map_or(0, |(_, ratio)| answer.loss / ratio)
        }),
        ("in controller cycles, rounded up", |_, _, answer| {
            answer.loss.min(1)
        }),
        ("one bit of it", |_, _, answer| answer.loss % 2),
        ("that of gap 1", |state, _, answer| {
            loss_of(state, answer.gap.min(1))
        }),
        ("that of the next gap", |state, _, answer| {
            loss_of(state, answer.gap % 20 + u64::from(answer.gap != 0))
        }),
        ("by the first opening's ratio", |state, _, answer| {
            let ratio = state.records.iter().find_map(|record| match record {
                Record::Opening(opening) => Some(opening.ratio),
                _ => None,
            });
            let by_first = |(gap, own)| lost(gap, ratio.unwrap_or(own));
            named(state, answer).map_or(0, by_first)
        }),
    ];

    /// Those that leave it out beside an answer, or tell it beside one that has none.
    const PLACED: [(&str, Loss); 6] = [
        ("left out of offers", |_, call, answer| match call {
            "offer" => 0,
            _ => answer.loss,
        }),
        ("left out of questions", |_, call, answer| match call {
            "ask" => 0,
            _ => answer.loss,
        }),
        ("left out of bursts", |_, call, answer| match call {
            "burst" => 0,
            _ => answer.loss,
        }),
        ("told of accepted offers", |state, call, answer| {
            match (call, answer.number) {
                ("offer", 0) => loss_of(state, 3),
                _ => answer.loss,
            }
        }),
        ("told with gap 0", |state, call, answer| {
            match (call, answer.number, answer.gap) {
                ("ask", 0, 0) => loss_of(state, 3),
                _ => answer.loss,
            }
        }),
        ("told of other refusals", |state, _, answer| {
            match answer.number {
                0 | 7 => answer.loss,
                _ => loss_of(state, 3),
            }
        }),
    ];

    /// Each is right but for what its name says.
    pub fn losses() -> Vec<(&'static str, Loss)> {
        [RECKONED.as_slice(), &PLACED].concat()
    }

    /// A program with one of them, or the right ones.
    pub struct Program {
        pub model: Model,
        pub burst: Burst,
        pub cut: Cut,
        pub open: Open,
        pub restore: Restore,
        pub loss: Loss,
    }

    impl Program {
        fn told(&self, call: &str, answer: Answer) -> Answer {
            let loss = (self.loss)(&self.model.state, call, answer);
            Answer { loss, ..answer }
        }
    }

    /// Single offers in a row, and not the model's own burst: what was accepted is counted by its records.
    fn in_a_row(state: &mut State, lent: &mut [u8], list: &[Command]) -> BurstAnswer {
        let before = state.records.len();
        let mut answers = list.iter().map(|command| state.offer(lent, *command));
        let refusal = answers.find(|answer| answer.number != 0).unwrap_or(NONE);
        let count = state.records.len() - before;
        BurstAnswer { count, refusal }
    }

    pub const RIGHT: (Burst, Cut) = (in_a_row, whole);
    pub const RIGHT_OPENINGS: (Open, Restore) = (open, State::restore);

    impl Checker for Program {
        fn open(&mut self, settings: (u64, u64, u64), client: u32, gaps: [u16; 20]) -> u64 {
            (self.open)(&mut self.model, settings, client, gaps)
        }
        fn offer(&mut self, command: Command) -> Answer {
            let answer = self.model.offer(command);
            self.told("offer", answer)
        }
        fn back(&mut self) -> u64 {
            self.model.back()
        }
        fn burst(&mut self, list: &[Command]) -> BurstAnswer {
            let told = (self.burst)(&mut self.model.state, &mut self.model.journal, list);
            let refusal = self.told("burst", told.refusal);
            BurstAnswer { refusal, ..told }
        }
        fn burst_bytes(&mut self, pieces: &[u8]) -> BurstAnswer {
            self.burst(&(self.cut)(pieces))
        }
        fn ask(&self, kind: u64, rank: u64, bank: u64) -> Answer {
            self.told("ask", self.model.ask(kind, rank, bank))
        }
        fn status(&self) -> Status {
            self.model.status()
        }
        fn journal(&self) -> &[u8] {
            self.model.journal()
        }
        fn poke(&mut self, at: usize, byte: u8) {
            self.model.poke(at, byte);
        }
        fn restore(&mut self, bytes: usize) -> (u64, usize) {
            let (number, at, state) = (self.restore)(&self.model.journal[..bytes]);
            self.model.state = state;
            (number, at)
        }
    }
}

#[cfg(test)]
mod tests {
    use super::*;
    use crate::console::Console;
    use crate::generate::script;
    use std::collections::BTreeMap;

    fn compared(seed: u64, rounds: u64, calls: (wrong::Burst, wrong::Cut)) -> Result<u64, String> {
        compared_with(
            seed,
            rounds,
            calls,
            wrong::RIGHT_OPENINGS,
            wrong::right_loss,
        )
    }

    fn compared_with(
        seed: u64,
        rounds: u64,
        (burst, cut): (wrong::Burst, wrong::Cut),
        (open, restore): (wrong::Open, wrong::Restore),
        loss: wrong::Loss,
    ) -> Result<u64, String> {
        compare_burst_calls(seed, rounds, u64::MAX, |journal| wrong::Program {
            model: Model::new(journal),
            burst,
            cut,
            open,
            restore,
            loss,
        })
    }

    #[test]
    fn a_right_program_is_found_right() {
        let handed = compared(1, 400, wrong::RIGHT);
        assert!(handed.as_ref().is_ok_and(|n| *n > 50_000), "{handed:?}");
        let handed = compare_burst_calls(2, 50, WIDEST_IN_BYTES, Model::new);
        assert!(handed.as_ref().is_ok_and(|n| *n > 5_000), "{handed:?}");
    }

    #[test]
    fn wrong_programs_are_found_wrong() {
        let (right, whole) = wrong::RIGHT;
        let bursts = wrong::bursts()
            .into_iter()
            .map(|(name, burst)| (name, (burst, whole)));
        let cuts = wrong::CUTS
            .into_iter()
            .map(|(name, cut)| (name, (right, cut)));
        for (name, calls) in bursts.chain(cuts) {
            for seed in [1, 1_000] {
                let report = compared(seed, 60, calls).expect_err(name);
                assert!(
                    report.contains("expected ") && report.contains("got "),
                    "{name}"
                );
            }
        }
    }

    #[test]
    fn wrong_openings_are_found_wrong() {
        for (name, openings) in wrong::openings() {
            for seed in [1, 1_000] {
                let played = compared_with(seed, 60, wrong::RIGHT, openings, wrong::right_loss);
                let report = played.expect_err(name);
                assert!(report.contains("expected "), "{name}");
            }
        }
    }

    #[test]
    fn wrong_losses_are_found_wrong() {
        for (name, loss) in wrong::losses() {
            for seed in [1, 1_000] {
                let (right, openings) = (wrong::RIGHT, wrong::RIGHT_OPENINGS);
                let report = compared_with(seed, 60, right, openings, loss).expect_err(name);
                assert!(report.contains("expected "), "{name}");
            }
        }
    }

    /// Calls that never lose anything could not show a loss that is wrong.
    #[test]
    fn every_loss_is_told_by_every_call() {
        let mut losses = [[0; 4]; 3];
        for seed in 0..300 {
            let handed = play_round(Rng::new(seed), u64::MAX, Model::new).unwrap();
            for (call, loss) in (0..12).map(|n| (n / 4, n % 4)) {
                losses[call][loss] += handed.losses[call][loss];
            }
        }
        println!("losses 0 to 3 of offers, questions, lists: {losses:?}");
        assert!(losses.iter().flatten().all(|n| *n >= 5), "{losses:?}");
    }

    /// Calls that reach little of a mode or an edition could not show a fault in it.
    #[test]
    fn lists_are_handed_over_in_every_session() {
        let (mut within, mut rounds) = ([[0; 3]; EDITIONS], [[0; 3]; EDITIONS]);
        for seed in 0..225 {
            let handed = play_round(Rng::new(seed), u64::MAX, Model::new).unwrap();
            for (edition, mode) in (0..EDITIONS).flat_map(|e| [0, 1, 2].map(|m| (e, m))) {
                let commands = handed.within[edition][mode];
                within[edition][mode] += commands;
                rounds[edition][mode] += u64::from(commands >= 20);
            }
        }
        println!("commands {within:?}, rounds with 20 of them {rounds:?}");
        let all: u64 = within.iter().flatten().sum();
        assert!(within.iter().flatten().all(|n| 18 * n >= all), "{within:?}");
        assert!(rounds.iter().flatten().all(|n| *n >= 25), "{rounds:?}");
    }

    /// States of every mood, each with some room behind its records.
    fn states() -> impl Iterator<Item = (State, Vec<u8>)> {
        (0..39).map(|seed| {
            let (_, _, state) = State::restore(&script(seed, 60 + 5 * seed as usize).good);
            let journal = state.journal();
            let room = [journal, vec![7; RECORD * (seed as usize % 5) * 12 + 9]].concat();
            (state, room)
        })
    }

    /// What the request says of a list: document 01's answers one by one, each from a journal that is restored anew.
    fn expected(state: &State, lent: &[u8], list: &[Command]) -> (BurstAnswer, State, Vec<u8>) {
        let mut bytes = lent.to_vec();
        let mut end = RECORD * state.records.len();
        let opening = state.session().map_or(0, |s| s.0);
        for (count, command) in list.iter().enumerate() {
            let (number, _, restored) = State::restore(&bytes[..end]);
            assert_eq!(number, 0);
            let due = bytes_of(&Record::Command(*command), opening);
            let fits = [command.kind, command.rank, command.bank]
                .iter()
                .all(|n| *n < 256);
            let is_good = fits && restored.read(&due).is_some();
            if !is_good || end + RECORD > lent.len() {
                let refusal = refusal(&restored, command, is_good);
                return (BurstAnswer { count, refusal }, restored, bytes);
            }
            bytes[end..end + RECORD].copy_from_slice(&due);
            end += RECORD;
        }
        let (_, _, restored) = State::restore(&bytes[..end]);
        let (count, refusal) = (list.len(), zeros(0));
        (BurstAnswer { count, refusal }, restored, bytes)
    }

    fn zeros(number: u64) -> Answer {
        Answer {
            number,
            cycle: 0,
            gap: 0,
            loss: 0,
        }
    }

    /// Request 2026-07, by the banks that the survivors leave open.
    fn is_wrong(state: &State, command: &Command) -> bool {
        let mut open = std::collections::BTreeSet::new();
        for Command {
            kind, rank, bank, ..
        } in state.survivors()
        {
            match kind {
                ACT => drop(open.insert((rank, bank))),
                PREPB => drop(open.remove(&(rank, bank))),
                PREAB => open.retain(|(other, _)| *other != rank),
                _ => {}
            }
        }
        let is_open = open.contains(&(command.rank, command.bank));
        let is_new = state.session().is_some_and(|s| s.1.edition == 2);
        is_new
            && match command.kind {
                ACT | REFPB => is_open,
                RD | WR => !is_open,
                REFAB => open.iter().any(|(rank, _)| *rank == command.rank),
                _ => false,
            }
    }

    /// Document 01's lines from the last one up: the first that holds is left.
    fn refusal(state: &State, command: &Command, is_good: bool) -> Answer {
        let Command {
            kind,
            rank,
            bank,
            cycle,
        } = *command;
        let earliest = state.ask(kind, rank, bank);
        let last = state.survivors().last().map(|s| s.cycle);
        let mut answer = zeros(9);
        if !is_good {
            answer = Answer {
                number: 7,
                ..earliest
            };
        }
        if is_wrong(state, command) {
            answer = zeros(12);
        }
        if last.is_some_and(|last| last >= cycle) {
            answer = zeros(6);
        }
        if cycle >= 1 << 40 {
            answer = zeros(5);
        }
        if bank >= 16 || (bank > 0 && (kind == 5 || kind == 6)) {
            answer = zeros(4);
        }
        if state.session().is_some_and(|s| rank >= s.1.ranks) {
            answer = zeros(3);
        }
        if kind == 0 || kind >= 8 {
            answer = zeros(2);
        }
        match state.session() {
            Some(_) => answer,
            None => zeros(1),
        }
    }

    /// Single offers in a row, and what a restore and the document's lines make of the same list.
    #[test]
    fn a_burst_is_single_offers_up_to_a_refusal() {
        let mut rng = Rng::new(11);
        for (state, room) in states() {
            for _ in 0..12 {
                let list = any_burst(&mut rng, &state, 30, u64::MAX);
                let (mut given, mut lent) = (state.clone(), room.clone());
                let told = given.burst(&mut lent, &list);
                let (due, left, bytes) = expected(&state, &room, &list);
                assert_eq!(told, due);
                assert!(given == left && lent == bytes);
                let (mut single, mut lent) = (state.clone(), room.clone());
                let answers = list.iter().map(|c| single.offer(&mut lent, *c));
                let refused = answers.into_iter().find(|a| a.number != 0);
                assert_eq!(told.refusal, refused.unwrap_or(zeros(0)));
                assert!(given == single && lent == bytes);
            }
        }
    }

    /// Lists in both forms, where bytes can say them, with loose bytes and without.
    #[test]
    fn both_forms_are_equal() {
        let mut rng = Rng::new(12);
        for (state, room) in states() {
            for _ in 0..20 {
                let list = any_burst(&mut rng, &state, 40, WIDEST_IN_BYTES);
                let mut pieces = pieces_of(&mut rng, &list);
                let loose = rng.pick(&[0, 1, 16, 63]);
                pieces.extend((0..loose).map(|_| rng.draw() as u8));
                let (mut one, mut lent) = (state.clone(), room.clone());
                let (mut other, mut bytes) = (state.clone(), room.clone());
                let told = one.burst(&mut lent, &list);
                assert_eq!(told, other.burst_bytes(&mut bytes, &pieces));
                assert!(one == other && lent == bytes);
            }
        }
    }

    /// Lists that reach little could not show a fault.
    #[test]
    fn drawn_lists_reach_every_answer() {
        let mut rng = Rng::new(13);
        let mut seen: BTreeMap<String, u64> = BTreeMap::new();
        for (state, _) in states() {
            for _ in 0..60 {
                let list = any_burst(&mut rng, &state, 150, u64::MAX);
                let mut lent = vec![0; RECORD * (state.records.len() + 150)];
                let told = state.clone().burst(&mut lent, &list);
                let number = told.refusal.number;
                let mut keys = vec![format!("{number}"), format!("length {}", list.len().min(2))];
                if number != 0 {
                    let places = [("first", 0), ("last", list.len() - 1)];
                    let at = places.iter().find(|p| p.1 == told.count);
                    keys.push(format!("{number} {}", at.map_or("between", |p| p.0)));
                }
                if told.count > 64 {
                    keys.push("past the depth".to_string());
                }
                for key in keys {
                    *seen.entry(key).or_default() += 1;
                }
            }
        }
        let numbers = [2, 3, 4, 5, 6, 7, 12];
        let mut due = numbers.map(|n| (format!("{n}"), 60)).to_vec();
        for place in ["first", "last", "between"] {
            due.extend(numbers.map(|n| (format!("{n} {place}"), 10)));
        }
        due.extend([0, 1, 2].map(|length| (format!("length {length}"), 50)));
        due.extend(["0", "past the depth"].map(|key| (key.to_string(), 100)));
        for (key, least) in due {
            assert!(
                seen.get(&key).is_some_and(|n| *n >= least),
                "{key}: {seen:?}"
            );
        }
    }

    #[test]
    fn lines_that_are_malformed() {
        let mut rng = Rng::new(14);
        let mut console = Console::new();
        console.line(crate::generate::opening_a().as_bytes(), true);
        for _ in 0..5_000 {
            let list = any_burst(&mut rng, &console.state, 6, u64::MAX);
            let line = malformed_burst_line(&mut rng, &list);
            let answer = console.line(line.as_bytes(), true);
            assert_eq!(answer.as_deref(), Some("?"), "{line}");
        }
        assert_eq!(console.state.records.len(), 1);
    }

    /// A line says its list, as far as it is not too long.
    #[test]
    fn lines_of_lists() {
        let mut rng = Rng::new(15);
        for (state, _) in states() {
            let list = any_burst(&mut rng, &state, 300, u64::MAX);
            let line = burst_line(&mut rng, &list);
            let words: Vec<&[u8]> = line.split(' ').skip(1).map(str::as_bytes).collect();
            let said = crate::console::commands(&words).unwrap();
            assert!(line.len() <= LONGEST_LINE && list.starts_with(&said));
            assert!(said.len() == list.len() || line.len() > LONGEST_LINE - 100);
            let line = fullest_line(&mut rng);
            assert_eq!((line.len(), line.split(' ').count()), (4_093, 1 + 4 * 511));
        }
    }
}
