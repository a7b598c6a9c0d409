//! A seeded maker of console scripts. It asks the model while it writes, so that
//! offers fall on, just before and just after the earliest cycle, rooms run out
//! exactly, cuts and damage meet real records.

use crate::console::{Console, JOURNAL, LONGEST_LINE};
use crate::model::{
    bytes_of, Command, Record, State, ACT, LAST_CYCLE, NAMES, NEWEST_EDITION, PREAB, PREPB, RD,
    RECORD, REFAB, REFPB, WR,
};
use crate::sheet_calls::{any_sheet, malformed_gaps_line, sheet_of};

mod banks;
mod bursts;
mod losses;
mod openings;

pub use banks::{banks_of, closing, fitted, wrong_cycle, wrong_place, Place};
pub use openings::{
    any_opening, bad_opening, early_refresh, in_mode, older, precharge_and_refresh, reopened,
    Change, Reopened, EDITION_AT, LIVE_MODES, MODE_AT,
};

#[cfg(test)]
pub(crate) use openings::new_pair;

/// Whether scripts and steps have `gaps` lines: once the programs under test know the form.
pub const GAPS_LINES: bool = true;
/// The same for `burst` lines.
pub const BURST_LINES: bool = true;

/// The requests' forms that scripts and steps have lines of. Without a form the same numbers
/// are drawn as if there were none.
#[derive(Clone, Copy, Debug)]
pub struct Forms {
    pub gaps: bool,
    pub bursts: bool,
}

/// What the programs under test know.
pub const FORMS: Forms = Forms {
    gaps: GAPS_LINES,
    bursts: BURST_LINES,
};

/// Small generator of numbers (splitmix64).
pub struct Rng(u64);

impl Rng {
    pub fn new(seed: u64) -> Rng {
        Rng(seed)
    }

    /// Another generator, so that what it draws changes nothing of this one's.
    pub fn apart(&self) -> Rng {
        Rng(self.0 ^ 0x5851_f42d_4c95_7f2d)
    }

    pub fn draw(&mut self) -> u64 {
        self.0 = self.0.wrapping_add(0x9e37_79b9_7f4a_7c15);
        let mut z = self.0;
        z = (z ^ (z >> 30)).wrapping_mul(0xbf58_476d_1ce4_e5b9);
        z = (z ^ (z >> 27)).wrapping_mul(0x94d0_49bb_1331_11eb);
        z ^ (z >> 31)
    }

    /// 0 to `count` - 1.
    pub fn below(&mut self, count: u64) -> u64 {
        self.draw() % count
    }

    /// `low` to `high`, both included.
    pub fn between(&mut self, low: u64, high: u64) -> u64 {
        low + self.below(high - low + 1)
    }

    pub fn chance(&mut self, percent: u64) -> bool {
        self.below(100) < percent
    }

    pub fn pick<T: Copy>(&mut self, from: &[T]) -> T {
        from[self.below(from.len() as u64) as usize]
    }

    /// One of the first halves, each as often as its second half says.
    fn weighed<T: Copy>(&mut self, from: &[(T, u64)]) -> T {
        let mut left = self.below(from.iter().map(|f| f.1).sum());
        for (what, weight) in from {
            if left < *weight {
                return *what;
            }
            left -= weight;
        }
        from[0].0
    }
}

/// What a script is mostly about, so that deep states are reached.
#[derive(Clone, Copy, Debug, PartialEq, Eq)]
pub enum Mood {
    Steady,
    SecondThoughts,
    Deep,
    Clients,
    TwoRanks,
    FourActivates,
    Limit,
    Room,
    Cuts,
    Damage,
    Malformed,
    Wild,
    Mixed,
}

pub const MOODS: [Mood; 13] = [
    Mood::Steady,
    Mood::SecondThoughts,
    Mood::Deep,
    Mood::Clients,
    Mood::TwoRanks,
    Mood::FourActivates,
    Mood::Limit,
    Mood::Room,
    Mood::Cuts,
    Mood::Damage,
    Mood::Malformed,
    Mood::Wild,
    Mood::Mixed,
];

/// One line as it is sent, ending included, and what the model prints for it.
pub struct Line {
    pub sent: Vec<u8>,
    pub answer: Option<Vec<u8>>,
}

pub struct Script {
    pub seed: u64,
    pub mood: Mood,
    pub lines: Vec<Line>,
    /// The journal's front as the script leaves it, damage and old records too.
    pub left: Vec<u8>,
    /// The journal of the state that the script leaves: every record is good.
    pub good: Vec<u8>,
}

impl Script {
    pub fn input(&self) -> Vec<u8> {
        let mut bytes = Vec::new();
        for line in &self.lines {
            bytes.extend_from_slice(&line.sent);
        }
        bytes
    }

    pub fn output(&self) -> Vec<u8> {
        let mut bytes = Vec::new();
        for answer in self.lines.iter().filter_map(|line| line.answer.as_ref()) {
            bytes.extend_from_slice(answer);
            bytes.push(b'\n');
        }
        bytes
    }
}

/// The script of a seed.
pub fn script(seed: u64, lines: usize) -> Script {
    script_with(seed, lines, FORMS)
}

/// With the lines of these forms.
pub fn script_with(seed: u64, lines: usize, forms: Forms) -> Script {
    let mood = MOODS[(seed % MOODS.len() as u64) as usize];
    let mut player = Player::new(seed, mood, lines);
    player.forms = forms;
    player.play();
    Script {
        seed,
        mood,
        lines: player.lines,
        left: player.console.left(),
        good: player.console.state.journal(),
    }
}

/// Document 01's settings A.
pub const SETTINGS_A: [u16; 20] = [
    60, 8, 18, 42, 8, 8, 6, 20, 7, 30, 30, 25, 40, 18, 21, 2, 280, 140, 90, 32,
];

/// Settings A as a request: ratio 4, one rank, mode 0, client 7.
pub fn opening_a() -> String {
    let gaps: Vec<String> = SETTINGS_A.iter().map(u16::to_string).collect();
    format!("open 4 1 0 7 {}", gaps.join(" "))
}

/// Numbers at the edges of their places, and those that look right once cut
/// down to 8, 16 or 32 bits.
const EDGES: [u64; 44] = [
    0,
    1,
    2,
    3,
    4,
    5,
    6,
    7,
    8,
    9,
    15,
    16,
    17,
    31,
    63,
    64,
    65,
    127,
    128,
    255,
    256,
    257,
    258,
    260,
    65_535,
    65_536,
    65_537,
    1 << 31,
    (1 << 32) - 1,
    1 << 32,
    (1 << 32) + 1,
    (1 << 32) + 2,
    (1 << 40) - 2,
    (1 << 40) - 1,
    1 << 40,
    (1 << 40) + 1,
    (1 << 48) + 1,
    (1 << 56) + 1,
    (1 << 63) - 1,
    1 << 63,
    (1 << 63) + 1,
    u64::MAX - 2,
    u64::MAX - 1,
    u64::MAX,
];

/// A line with zeros before its last word, so that it has so many bytes.
pub fn padded(line: &str, length: usize) -> String {
    let (front, last) = line.rsplit_once(' ').unwrap_or((line, ""));
    let width = length.saturating_sub(front.len() + 1);
    format!("{front} {last:0>width$}")
}

/// Words that are no kind, though they look like one.
pub const NO_KINDS: [&str; 17] = [
    "act", "Act", "rd", "wr", "Prepb", "PREpb", "preab", "refab", "REF", "PRE", "ACTT", "AC",
    "RDA", "RD1", "REFpb", "PREPB,", "A",
];

/// Numbers beyond 64 bits; some come out small if they are let wrap.
pub const TOO_LARGE: [&str; 9] = [
    "18446744073709551616",
    "18446744073709551617",
    "18446744073709551620",
    "18446744073709551625",
    "36893488147419103233",
    "99999999999999999999",
    "100000000000000000000",
    "340282366920938463463374607431768211457",
    "99999999999999999999999999999999999999999999999999",
];

#[derive(Clone, Copy)]
enum Act {
    Offer,
    Run,
    Ask,
    Sweep,
    Back,
    BackRun,
    ToTheBottom,
    Status,
    Stretch,
    Bytes,
    Open,
    OpenBadly,
    OtherOpening,
    SpoilOpening,
    Columns,
    Refreshes,
    Losses,
    Banks,
    Lend,
    FillRoom,
    Cut,
    CutAndReturn,
    Damage,
    Malformed,
    Wild,
}

/// Which kinds a client mostly sends.
const TASTES: [[(u64, u64); 7]; 6] = [
    [
        (ACT, 4),
        (RD, 3),
        (WR, 3),
        (PREPB, 3),
        (PREAB, 1),
        (REFAB, 1),
        (REFPB, 2),
    ],
    [
        (ACT, 2),
        (RD, 9),
        (WR, 9),
        (PREPB, 1),
        (PREAB, 1),
        (REFAB, 0),
        (REFPB, 0),
    ],
    [
        (ACT, 20),
        (RD, 1),
        (WR, 1),
        (PREPB, 1),
        (PREAB, 0),
        (REFAB, 0),
        (REFPB, 1),
    ],
    [
        (ACT, 3),
        (RD, 0),
        (WR, 0),
        (PREPB, 4),
        (PREAB, 3),
        (REFAB, 3),
        (REFPB, 6),
    ],
    [
        (ACT, 3),
        (RD, 3),
        (WR, 3),
        (PREPB, 3),
        (PREAB, 3),
        (REFAB, 3),
        (REFPB, 3),
    ],
    [
        (ACT, 5),
        (RD, 4),
        (WR, 4),
        (PREPB, 5),
        (PREAB, 0),
        (REFAB, 0),
        (REFPB, 0),
    ],
];

/// The banks and the kinds that a client mostly uses.
pub struct Habits {
    busy: Vec<u64>,
    taste: usize,
    /// How many of a hundred commands go by the state of their bank where nobody looks at it.
    pub care: u64,
}

impl Habits {
    pub fn any(rng: &mut Rng) -> Habits {
        let taste = rng.below(TASTES.len() as u64) as usize;
        Habits::of_taste(rng, taste)
    }

    fn of_taste(rng: &mut Rng, taste: usize) -> Habits {
        let mut busy = Vec::new();
        for _ in 0..rng.between(1, 3) {
            let bank = rng.below(16);
            busy.push(bank);
            if rng.chance(60) {
                // Its neighbour in a group of two.
                busy.push(bank ^ 1);
            }
            if rng.chance(50) {
                // Of the two beside, in a group of four.
                busy.push(bank ^ rng.pick(&[2, 3]));
            }
        }
        let care = rng.pick(&[0, 50, 100]);
        Habits { busy, taste, care }
    }

    pub fn kind(&self, rng: &mut Rng) -> u64 {
        rng.weighed(&TASTES[self.taste])
    }

    pub fn bank(&self, rng: &mut Rng, kind: u64) -> u64 {
        match kind {
            PREAB | REFAB => 0,
            _ if rng.chance(15) => rng.below(16),
            _ => rng.pick(&self.busy),
        }
    }
}

struct Player {
    rng: Rng,
    console: Console,
    mood: Mood,
    lines: Vec<Line>,
    most: usize,
    habits: Habits,
    /// How often each gap was named, so that seldom ones are sought.
    named: [u64; 21],
    forms: Forms,
}

impl Player {
    fn new(seed: u64, mood: Mood, most: usize) -> Player {
        Player {
            rng: Rng::new(seed),
            console: Console::new(),
            mood,
            lines: Vec::new(),
            most,
            habits: Habits {
                busy: vec![0, 1, 2],
                taste: 0,
                care: 50,
            },
            named: [0; 21],
            forms: FORMS,
        }
    }

    fn full(&self) -> bool {
        self.lines.len() >= self.most
    }

    fn count(&self) -> u64 {
        self.console.state.records.len() as u64
    }

    fn last(&self) -> u64 {
        self.console.state.status().last
    }

    fn ranks(&self) -> u64 {
        self.console.state.session().map_or(1, |s| s.1.ranks)
    }

    /// The earliest cycle and the named gap; no cycle here comes near 64 bits.
    fn earliest(&self, (kind, rank, bank): (u64, u64, u64)) -> (u64, u64) {
        let (cycle, gap) = self.console.state.earliest(kind, rank, bank);
        (cycle as u64, gap)
    }

    // Sending.

    /// Sends raw bytes as one line; nothing once the script is full.
    fn send(&mut self, sent: Vec<u8>) -> Option<String> {
        if self.full() {
            return None;
        }
        let mut out = self.console.feed(&sent);
        if !sent.ends_with(b"\n") {
            out.extend(self.console.finish());
        }
        let answer = out.strip_suffix(b"\n").map(<[u8]>::to_vec);
        let text = answer
            .as_ref()
            .map(|a| String::from_utf8_lossy(a).into_owned());
        if let Some(text) = &text {
            self.note(text);
        }
        self.lines.push(Line { sent, answer });
        text
    }

    fn note(&mut self, answer: &str) {
        let words: Vec<&str> = answer.split(' ').collect();
        if let ["offer" | "ask", "0" | "7", _, gap, _] | ["burst", _, "7", _, gap, _] =
            words.as_slice()
        {
            if let Ok(gap) = gap.parse::<usize>() {
                self.named[gap] += 1;
            }
        }
    }

    fn blanks(&mut self, low: u64, high: u64) -> Vec<u8> {
        let count = self.rng.between(low, high);
        (0..count)
            .map(|_| if self.rng.chance(50) { b' ' } else { b'\t' })
            .collect()
    }

    /// A well-formed line, now and then with odd blanks, zeros and endings that
    /// change nothing.
    fn dress(&mut self, text: &str) -> Vec<u8> {
        let odd = self.rng.chance(8);
        let mut sent = Vec::new();
        if odd {
            sent.extend(self.blanks(0, 3));
        }
        for (i, word) in text.split(' ').enumerate() {
            if i > 0 {
                let between = if odd { self.blanks(1, 4) } else { vec![b' '] };
                sent.extend(between);
            }
            let digits = word.bytes().all(|b| b.is_ascii_digit());
            if digits && self.rng.chance(if odd { 30 } else { 1 }) {
                let zeros = self.rng.between(1, 30) as usize;
                sent.extend(vec![b'0'; zeros]);
            }
            sent.extend_from_slice(word.as_bytes());
        }
        if odd {
            sent.extend(self.blanks(0, 3));
        }
        sent.extend_from_slice(if self.rng.chance(6) { b"\r\n" } else { b"\n" });
        sent
    }

    fn say(&mut self, text: &str) -> Option<String> {
        if self.full() {
            return None;
        }
        let sent = self.dress(text);
        self.send(sent)
    }

    fn kind_word(&mut self, kind: u64) -> String {
        match NAMES.get((kind as usize).wrapping_sub(1)) {
            Some(name) if self.rng.chance(60) => name.to_string(),
            _ => kind.to_string(),
        }
    }

    // Choosing.

    fn gaps(&mut self) -> [u16; 20] {
        let mut gaps = [0; 20];
        let profile = match self.mood {
            Mood::FourActivates => 7,
            Mood::Limit if self.rng.chance(50) => 3,
            _ => self.rng.below(14),
        };
        match profile {
            0 => gaps = SETTINGS_A,
            1 => gaps.fill_with(|| self.rng.below(41) as u16),
            2 => {
                // Nearly all gaps are nothing.
                for _ in 0..self.rng.between(1, 5) {
                    gaps[self.rng.below(20) as usize] = self.rng.between(1, 60) as u16;
                }
            }
            3 => gaps.fill_with(|| {
                let any = self.rng.draw() as u16;
                self.rng.pick(&[
                    0, 1, 2, 3, 4, 5, 255, 256, 257, 32_768, 65_532, 65_533, 65_534, 65_535, any,
                ])
            }),
            4 => {
                // The short gaps longer than the long ones.
                gaps = SETTINGS_A;
                let pairs = [
                    (0, 1),
                    (5, 6),
                    (10, 11),
                    (16, 17),
                    (17, 18),
                    (2, 3),
                    (13, 14),
                    (1, 19),
                    (8, 12),
                    (7, 9),
                    (4, 15),
                ];
                for (one, other) in pairs {
                    if self.rng.chance(65) {
                        gaps.swap(one, other);
                    }
                }
            }
            5 => gaps = [self.rng.below(30) as u16; 20],
            6 => {
                // Alike once rounded, so that several gaps ask for one cycle.
                let base = 4 * self.rng.between(1, 6) as u16;
                gaps.fill_with(|| base + self.rng.below(6) as u16);
            }
            7 => {
                gaps.fill_with(|| self.rng.below(5) as u16);
                gaps[0] = self.rng.below(12) as u16;
                gaps[1] = self.rng.below(6) as u16;
                gaps[14] = self.rng.below(24) as u16;
                gaps[19] = self.rng.between(3, 70) as u16;
            }
            8 => {}
            9 => gaps.fill_with(|| self.rng.below(300) as u16),
            10 => gaps = [65_535; 20],
            11 | 12 => {
                // A precharge of all banks is longer than a refresh.
                gaps = SETTINGS_A;
                gaps[14] = self.rng.between(40, 400) as u16;
                for refresh in [16, 17, 18] {
                    gaps[refresh] = self.rng.below(60) as u16;
                }
            }
            _ => {
                gaps.fill_with(|| (4 * self.rng.below(12) + self.rng.pick(&[0, 1, 3])) as u16);
            }
        }
        gaps
    }

    fn client(&mut self) -> u32 {
        let any = self.rng.draw() as u32;
        self.rng
            .pick(&[0, 1, 7, 255, 256, 65_536, u32::MAX - 1, u32::MAX, any, any])
    }

    /// New habits: banks, kinds.
    fn new_habits(&mut self) {
        self.habits = match self.mood {
            Mood::FourActivates => Habits::of_taste(&mut self.rng, 2),
            _ => Habits::any(&mut self.rng),
        };
    }

    /// Whatever the state of its bank is.
    fn any_place(&mut self) -> Place {
        let kind = self.habits.kind(&mut self.rng);
        let rank = match self.ranks() {
            1 => 0,
            _ if self.mood == Mood::TwoRanks => self.rng.below(2),
            _ => u64::from(self.rng.chance(30)),
        };
        (kind, rank, self.habits.bank(&mut self.rng, kind))
    }

    fn any_command(&mut self) -> Place {
        let place = self.any_place();
        match self.is_careful() {
            true => fitted(&mut self.rng, &self.console.state, place),
            false => place,
        }
    }

    fn command(&mut self) -> Place {
        self.sought(Player::any_command)
    }

    /// One that is drawn so, often the one of several whose gaps tie or are seldom named.
    fn sought(&mut self, draw: fn(&mut Player) -> Place) -> Place {
        let mut best = draw(self);
        if !self.rng.chance(60) {
            return best;
        }
        let mut least = u64::MAX;
        for _ in 0..6 {
            let (kind, rank, bank) = draw(self);
            let (cycle, gap) = self.earliest((kind, rank, bank));
            let mut asking: Vec<u64> = Vec::new();
            for (asked, by) in self.console.state.asks(kind, rank, bank) {
                if asked == u128::from(cycle) && !asking.contains(&by) {
                    asking.push(by);
                }
            }
            let mut score = 2 * self.named[gap as usize] + 1;
            if asking.len() > 1 {
                score /= 4;
            }
            if score < least {
                least = score;
                best = (kind, rank, bank);
            }
        }
        best
    }

    // Calls.

    fn open_with(&mut self, ratio: u64, ranks: u64, mode: u64) -> Option<String> {
        let client = self.client();
        let gaps = self.gaps();
        let gaps: Vec<String> = gaps.iter().map(u16::to_string).collect();
        let text = format!("open {ratio} {ranks} {mode} {client} {}", gaps.join(" "));
        self.say(&text)
    }

    /// A ratio, ranks and a mode.
    fn settings(&mut self) -> (u64, u64, u64) {
        // With 4 a gap can lose most.
        let ratio = self.rng.pick(&[1, 2, 4, 4]);
        let ranks = match self.mood {
            Mood::TwoRanks => 2,
            _ => self.rng.between(1, 2),
        };
        (ratio, ranks, self.rng.pick(&LIVE_MODES))
    }

    fn open(&mut self) {
        let (ratio, ranks, mode) = self.settings();
        if self.rng.chance(14) {
            self.open_in_mode_1(ratio, ranks);
        }
        let answer = self.open_with(ratio, ranks, mode);
        self.begin(answer);
    }

    /// What a new session begins with.
    fn begin(&mut self, answer: Option<String>) {
        if answer.as_deref() == Some("open 0") {
            self.new_habits();
            if self.rng.chance(78) {
                self.begin_older();
            }
            if self.rng.chance(30) {
                self.refreshes();
            }
            if self.mood == Mood::Limit {
                self.go_to_the_limit();
            }
        }
    }

    /// The gaps of a data sheet.
    fn ask_for_gaps(&mut self) -> Option<String> {
        // Of any sheet's gaps most are too long for activates to meet.
        let usual = self.mood == Mood::FourActivates || self.rng.chance(40);
        let sheet = if usual {
            let gaps = self.gaps();
            sheet_of(&mut self.rng, gaps)
        } else {
            any_sheet(&mut self.rng)
        };
        let answer = if self.rng.chance(4) {
            let length = self.rng.pick(&[LONGEST_LINE, LONGEST_LINE + 1]);
            let line = padded(&sheet.to_string(), length);
            self.send(format!("{line}\n").into_bytes())
        } else {
            self.say(&sheet.to_string())
        };
        if self.rng.chance(15) {
            // It changes nothing.
            self.say("status");
        }
        answer
    }

    /// Gaps, and often an opening with what was told.
    fn gaps_and_open(&mut self) {
        let answer = self.ask_for_gaps();
        let opens = match self.mood {
            // An opening ends a session that was to become long.
            Mood::Steady | Mood::Deep | Mood::TwoRanks | Mood::FourActivates => 10,
            _ => 40,
        };
        let told = answer.as_ref().and_then(|a| a.strip_prefix("gaps 0 0 "));
        if let Some(gaps) = told.filter(|_| self.rng.chance(opens)) {
            self.open_as_told(gaps);
        }
    }

    fn open_as_told(&mut self, gaps: &str) {
        let (ratio, ranks, mode) = self.settings();
        let client = self.client();
        let answer = self.say(&format!("open {ratio} {ranks} {mode} {client} {gaps}"));
        self.begin(answer);
    }

    /// Before some acts.
    fn gaps_now_and_then(&mut self) {
        let percent = match self.mood {
            Mood::Clients | Mood::Wild => 9,
            Mood::Mixed | Mood::Malformed => 6,
            // Its acts are long.
            Mood::Deep => 30,
            _ => 3,
        };
        if self.forms.gaps && self.rng.chance(percent) {
            self.gaps_and_open();
        }
    }

    fn open_badly(&mut self) {
        let (mut ratio, mut ranks, mut mode) = (
            self.rng.pick(&[1, 2, 4]),
            self.rng.between(1, 2),
            self.rng.pick(&LIVE_MODES),
        );
        let which = self.rng.between(1, 7);
        if which & 1 != 0 {
            let edge = self.rng.pick(&EDGES);
            ratio = self.rng.pick(&[0, 3, 5, 6, 8, 257, 260, edge]);
        }
        if which & 2 != 0 {
            let edge = self.rng.pick(&EDGES);
            ranks = self.rng.pick(&[0, 3, 4, 257, 258, (1 << 32) + 1, edge]);
        }
        if which & 4 != 0 {
            let edge = self.rng.pick(&EDGES);
            mode = self.rng.pick(&[1, 3, 3, 256, 257, 258, 1 << 32, edge]);
        }
        self.open_with(ratio, ranks, mode);
        if self.rng.chance(40) {
            self.say("status");
        }
        if self.rng.chance(40) {
            self.ask();
        }
    }

    fn offer_at(&mut self, (kind, rank, bank): (u64, u64, u64), cycle: u64) -> Option<String> {
        let kind = self.kind_word(kind);
        let answer = self.say(&format!("offer {kind} {rank} {bank} {cycle}"));
        let accepted = answer.as_deref().is_some_and(|a| a.starts_with("offer 0"));
        let end = 64 * self.count();
        if accepted && self.rng.chance(7) {
            self.say(&format!("bytes {} 64", end - 64));
        }
        if !accepted && self.rng.chance(7) {
            // A refused call writes nothing.
            self.say(&format!("bytes {end} 64"));
        }
        if accepted && self.mood != Mood::Limit && cycle > LAST_CYCLE / 2 && self.rng.chance(85) {
            // No session goes on for long from here.
            self.say("back");
        }
        answer
    }

    fn offer(&mut self) {
        if self.rng.chance(8) {
            return self.wrong_offer();
        }
        self.timed_offer();
    }

    /// On, just before or just after the earliest cycle, or anywhere.
    fn timed_offer(&mut self) {
        let (on, before, after) = match self.mood {
            Mood::Steady | Mood::Deep | Mood::FourActivates => (70, 14, 6),
            _ => (50, 20, 8),
        };
        let draw = self.rng.below(100);
        let too_early = (on..on + before).contains(&draw);
        let mut command = self.command();
        for _ in 0..8 {
            // One cycle before a gap's ask says more than one before no gap.
            let (_, gap) = self.earliest(command);
            if !too_early || gap != 0 {
                break;
            }
            command = self.any_command();
        }
        let (kind, rank, bank) = command;
        let (earliest, _) = self.earliest(command);
        let last = self.last();
        let cycle = match draw {
            n if n < on => earliest,
            n if n < on + before => earliest.saturating_sub(1),
            n if n < on + before + after => earliest + 1,
            _ => match self.rng.below(16) {
                0 => last,
                1 => last.saturating_sub(1),
                2 => last + 1,
                3 => earliest.saturating_sub(self.rng.below(6)),
                4 => 0,
                5 => self.rng.pick(&EDGES),
                6 => self.rng.pick(&[LAST_CYCLE - 1, LAST_CYCLE, LAST_CYCLE + 1]),
                7 => earliest + self.rng.below(70_000),
                _ => earliest + self.rng.below(12),
            },
        };
        if self.rng.chance(8) {
            let kind = self.kind_word(kind);
            self.say(&format!("ask {kind} {rank} {bank}"));
        }
        self.offer_at(command, cycle);
    }

    /// Many commands, nearly all accepted at their earliest cycle.
    fn run(&mut self, count: u64) {
        for _ in 0..count {
            let command = self.command();
            let (earliest, _) = self.earliest(command);
            let cycle = match self.rng.below(12) {
                0 => earliest.saturating_sub(1),
                1 => earliest + 1,
                _ => earliest,
            };
            self.offer_at(command, cycle);
        }
    }

    fn ask(&mut self) {
        // It is about gaps only.
        let (kind, rank, bank) = self.sought(Player::any_place);
        let kind = self.kind_word(kind);
        self.say(&format!("ask {kind} {rank} {bank}"));
    }

    /// All kinds on one bank and its neighbours.
    fn sweep(&mut self) {
        let (_, rank, bank) = self.any_command();
        for kind in 1..=7 {
            let bank = match kind {
                PREAB | REFAB => 0,
                _ => bank ^ self.rng.pick(&[0, 0, 1, 1, 2, 3, 4]),
            };
            let kind = self.kind_word(kind);
            self.say(&format!("ask {kind} {rank} {bank}"));
        }
    }

    /// A take-back, then now and then a question that the command taken back
    /// would have answered otherwise.
    fn back(&mut self) {
        let taken = self.console.state.survivors().last().copied();
        self.say("back");
        let Some(taken) = taken else { return };
        if taken.kind == ACT && self.rng.chance(60) {
            // The fourth activate before is another one now.
            let first = self.rng.below(16);
            for bank in (0..16).map(|i| (first + i) % 16) {
                if self.earliest((ACT, taken.rank, bank)).1 == 20 {
                    let kind = self.kind_word(ACT);
                    self.say(&format!("ask {kind} {} {bank}", taken.rank));
                    break;
                }
            }
        }
        if self.rng.chance(35) {
            let kind = if self.rng.chance(40) {
                taken.kind
            } else {
                self.habits.kind(&mut self.rng)
            };
            let bank = match kind {
                PREAB | REFAB => 0,
                _ => taken.bank ^ self.rng.pick(&[0, 0, 0, 1, 1, 2, 3]),
            };
            let kind = self.kind_word(kind);
            self.say(&format!("ask {kind} {} {bank}", taken.rank));
        }
    }

    fn back_run(&mut self) {
        for _ in 0..self.rng.between(2, 9) {
            self.back();
        }
    }

    /// Takes back all that can be, tries once or twice more, and asks what the
    /// oldest command taken back would have answered otherwise.
    fn back_to_bottom(&mut self) {
        let depth = self.console.state.depth();
        let survivors = self.console.state.survivors();
        let oldest = survivors.get(survivors.len() - depth as usize).copied();
        if self.rng.chance(30) {
            self.say("status");
        }
        for _ in 0..depth {
            self.say("back");
        }
        if let Some(oldest) = oldest {
            for kind in [oldest.kind, ACT, PREPB] {
                let bank = match kind {
                    PREAB | REFAB => 0,
                    _ => oldest.bank,
                };
                self.say(&format!("ask {kind} {} {bank}", oldest.rank));
            }
        }
        for _ in 0..self.rng.between(1, 2) {
            self.say("back");
        }
        self.say("status");
        self.ask();
        if self.rng.chance(60) {
            let rank = self.rng.below(self.ranks());
            self.show_banks(rank, 3);
        }
    }

    /// Past the depth that counts, then to the bottom or near it.
    fn deep_run(&mut self) {
        let most = self.rng.pick(&[62, 63, 64, 65, 66, 70, 90, 130]);
        self.run(most);
        self.say("status");
        if self.rng.chance(50) {
            // Some taken back and put again, so that depth and survivors part.
            for _ in 0..self.rng.between(1, 6) {
                self.back();
            }
            if self.rng.chance(50) {
                self.restore_at(64 * self.count());
                self.say("status");
            }
            let again = self.rng.between(0, 4);
            self.run(again);
        }
        if self.rng.chance(70) {
            self.back_to_bottom();
        } else {
            for _ in 0..self.rng.between(60, 66) {
                self.back();
            }
        }
        if self.rng.chance(50) {
            self.restore_at(64 * self.count());
            self.say("status");
            self.say("back");
        }
    }

    fn go_to_the_limit(&mut self) {
        let near = self
            .rng
            .pick(&[0, 1, 2, 5, 20, 100, 1_000, 65_535, 200_000]);
        let before = self.rng.below(near + 1);
        let command = self.any_command();
        self.offer_at(command, LAST_CYCLE - before);
    }

    /// At the limit a session ends by itself: takes back or opens again.
    fn leave_the_limit(&mut self) {
        let command = self.command();
        let (kind, rank, bank) = command;
        self.say(&format!("ask {kind} {rank} {bank}"));
        for cycle in [LAST_CYCLE, LAST_CYCLE + 1] {
            if self.rng.chance(50) {
                self.offer_at(command, cycle);
            }
        }
        for _ in 0..self.rng.between(1, 8) {
            self.back();
        }
    }

    fn stretch(&mut self) {
        // A long one is long to compare, and says little more than a short one.
        let session = self.console.state.session();
        let opening = session.map_or(0, |s| s.0 as u64);
        if self.count() - opening < 60 || self.rng.chance(15) {
            self.say("stretch");
        }
    }

    fn bytes(&mut self) {
        let end = 64 * self.count();
        let all = JOURNAL as u64;
        let (from, count) = match self.rng.below(12) {
            0 => (end, 64),
            1 => (end.saturating_sub(64), 128),
            2 => (self.rng.below(end + 1), self.rng.below(200)),
            3 => (0, end.min(20_000)),
            4 => (all, 0),
            5 => (all - 1, 1),
            6 => (all - self.rng.below(10), self.rng.below(12)),
            7 => (self.rng.pick(&EDGES), self.rng.pick(&[0, 1, u64::MAX])),
            8 => (self.rng.below(64), 0),
            9 => (0, self.rng.pick(&[all + 1, 1 << 63, u64::MAX])),
            10 => (u64::MAX, 2),
            _ => (end.saturating_sub(64), 64),
        };
        self.say(&format!("bytes {from} {count}"));
    }

    /// A number of bytes around the end of what was written.
    fn around_the_end(&mut self) -> u64 {
        let count = self.count();
        let loose = self.rng.pick(&[0, 0, 1, 63]);
        match self.rng.below(16) {
            0 => 64 * count,
            1 => 64 * count + loose,
            2 => (64 * count).saturating_sub(1),
            3 => 64 * count.saturating_sub(1) + loose,
            4 => 64 * (count + 1) + loose,
            5 => (64 * (count + 1)) - 1,
            6 => 64 * (count + 2) + loose,
            7 => 64 * (count + self.rng.below(8)) + loose,
            8 => self.rng.below(64),
            9 => 0,
            10 => self.rng.pick(&EDGES),
            11 => self
                .rng
                .pick(&[JOURNAL as u64 - 1, JOURNAL as u64, JOURNAL as u64 + 1]),
            _ => JOURNAL as u64,
        }
    }

    fn lend(&mut self) {
        let bytes = self.around_the_end();
        self.say(&format!("lend {bytes}"));
        if self.rng.chance(40) {
            self.stretch();
        }
        if self.rng.chance(40) {
            self.say("status");
        }
    }

    /// Lends room for a few records and plays until it has run out, refusals of
    /// other lines among them.
    fn fill_room(&mut self) {
        let more = self.rng.below(5);
        let loose = self.rng.pick(&[0, 0, 1, 63]);
        let bytes = 64 * (self.count() + more) + loose;
        self.say(&format!("lend {bytes}"));
        for _ in 0..more + 2 {
            match self.rng.below(10) {
                0 => self.open(),
                1 | 2 => self.back(),
                3 => self.offer(),
                _ => {
                    let command = self.command();
                    self.offer_early(command);
                }
            }
        }
        if self.rng.chance(60) {
            self.say("back");
        }
        if self.rng.chance(60) {
            self.wrong_offer();
        }
        if self.rng.chance(40) {
            self.open();
        }
        if self.rng.chance(30) {
            self.open_badly();
        }
        if self.rng.chance(50) {
            self.offer();
        }
        if self.rng.chance(40) {
            self.bytes();
        }
        if self.rng.chance(70) {
            self.say(&format!("lend {JOURNAL}"));
        } else {
            self.lend();
        }
    }

    fn restore_at(&mut self, bytes: u64) -> Option<String> {
        self.say(&format!("restore {bytes}"))
    }

    fn cut_place(&mut self) -> u64 {
        let count = self.count();
        match self.rng.below(12) {
            0..=3 => 64 * self.rng.below(count + 1),
            4 | 5 => self.rng.below(64 * count + 64),
            6 => 64 * self.rng.below(count + 1) + self.rng.pick(&[1, 31, 32, 63]),
            7 => (64 * self.rng.below(count + 1)).saturating_sub(1),
            8 => 64 * count + self.rng.below(64),
            _ => self.around_the_end(),
        }
    }

    /// Sends what the record stored next says, if it is a good one.
    fn play_stored(&mut self) {
        let at = 64 * self.count() as usize;
        let Some(stored) = self.console.journal.get(at..at + RECORD) else {
            return;
        };
        let stored = stored.to_vec();
        match self.console.state.read(&stored) {
            Some(Record::Command(c)) => {
                self.offer_at((c.kind, c.rank, c.bank), c.cycle);
            }
            Some(Record::TakeBack) => {
                self.say("back");
            }
            _ => self.ask(),
        }
    }

    fn cut(&mut self) {
        let place = self.cut_place();
        self.restore_at(place);
        if self.rng.chance(60) {
            self.say("status");
        }
        for _ in 0..self.rng.below(4) {
            match self.rng.below(4) {
                0 => self.play_stored(),
                1 => self.ask(),
                2 => self.offer(),
                _ => self.back(),
            }
        }
    }

    /// A cut, questions, and back to all that was written.
    fn cut_and_return(&mut self) {
        let end = 64 * self.count();
        let place = self.cut_place();
        self.restore_at(place);
        if self.rng.chance(60) {
            self.say("status");
        }
        for _ in 0..self.rng.below(4) {
            self.ask();
        }
        if self.rng.chance(25) {
            self.stretch();
        }
        let loose = self.rng.below(64);
        self.restore_at(end + loose);
        if self.rng.chance(50) {
            self.say("status");
        }
    }

    /// Bytes to write into record `number` so that it says something else.
    fn damage_to(&mut self, number: usize) -> Vec<(usize, u8)> {
        let at = RECORD * number;
        let old = self.console.journal[at..at + RECORD].to_vec();
        let near = |rng: &mut Rng, byte: u8| {
            let any = rng.draw() as u8;
            rng.pick(&[byte ^ 1, byte.wrapping_add(1), byte.wrapping_sub(1), 0, any])
        };
        if self.rng.chance(12) {
            let byte = self.rng.pick(&[0, 1, 2, 3, 4, 5, 128, 255]);
            return vec![(0, byte)];
        }
        match old[0] {
            1 => match self.rng.below(13) {
                0 | 1 => vec![(1, self.rng.pick(&[0, 1, 2, 3, 4, 5, 8, 255]))],
                2 | 3 => vec![(2, self.rng.pick(&[0, 1, 2, 3, 255]))],
                4 | 5 => vec![(3, self.rng.pick(&[0, 1, 2, 3, 255]))],
                6 => {
                    let at = self.rng.between(4, 7) as usize;
                    vec![(at, near(&mut self.rng, old[at]))]
                }
                7 | 8 => {
                    let at = self.rng.between(8, 47) as usize;
                    vec![(at, near(&mut self.rng, old[at]))]
                }
                9 => vec![(self.rng.pick(&[49, 63]), self.rng.pick(&[1, 128, 255]))],
                10 => vec![(EDITION_AT, self.rng.pick(&[0, 1, 2, 3, 4, 255]))],
                _ => {
                    let at = self.rng.between(48, 63) as usize;
                    vec![(at, self.rng.between(1, 255) as u8)]
                }
            },
            2 => match self.rng.below(14) {
                0 | 1 => vec![(1, self.rng.pick(&[0, 1, 2, 3, 4, 5, 6, 7, 8, 9, 255]))],
                2 | 3 => vec![(2, self.rng.pick(&[0, 1, 2, 3, 255]))],
                4 | 5 => vec![(3, self.rng.pick(&[0, 1, 2, 15, 16, 17, 255]))],
                6 | 7 => {
                    let at = self.rng.pick(&[4, 5, 6, 7]);
                    vec![(at, near(&mut self.rng, old[at]))]
                }
                8 | 9 => {
                    let at = self.rng.between(8, 15) as usize;
                    vec![(at, near(&mut self.rng, old[at]))]
                }
                10 | 11 => {
                    let cycle = u64::from_le_bytes(old[8..16].try_into().unwrap());
                    let other = match self.rng.below(6) {
                        0 | 1 => cycle.wrapping_sub(1),
                        2 => cycle.wrapping_add(1),
                        3 => LAST_CYCLE,
                        4 => LAST_CYCLE + 1,
                        _ => cycle.wrapping_sub(self.rng.below(9)),
                    };
                    let mut changes = Vec::new();
                    for (i, byte) in other.to_le_bytes().iter().enumerate() {
                        if *byte != old[8 + i] {
                            changes.push((8 + i, *byte));
                        }
                    }
                    changes
                }
                12 => vec![(self.rng.pick(&[16, 63]), self.rng.pick(&[1, 128, 255]))],
                _ => {
                    let at = self.rng.between(16, 63) as usize;
                    vec![(at, self.rng.between(1, 255) as u8)]
                }
            },
            3 => match self.rng.below(4) {
                0 => {
                    let at = self.rng.between(1, 3) as usize;
                    vec![(at, self.rng.between(1, 255) as u8)]
                }
                1 => {
                    let at = self.rng.pick(&[4, 4, 5, 6, 7]);
                    vec![(at, near(&mut self.rng, old[at]))]
                }
                2 => vec![(self.rng.pick(&[8, 15, 16, 63]), 1)],
                _ => {
                    let at = self.rng.between(8, 63) as usize;
                    vec![(at, self.rng.between(1, 255) as u8)]
                }
            },
            _ => vec![(self.rng.below(64) as usize, self.rng.draw() as u8)],
        }
    }

    fn damage(&mut self) {
        let count = self.count();
        let opening = self.console.state.session().map_or(0, |s| s.0 as u64);
        let number = match self.rng.below(6) {
            0 => opening,
            1 => count.saturating_sub(1),
            2 => self.rng.between(opening, count.max(opening)),
            _ => self.rng.below(count + 1),
        };
        let number = number.min(JOURNAL as u64 / 64 - 1);
        let changes = self.damage_to(number as usize);
        let mut old = Vec::new();
        for (offset, byte) in changes {
            let at = 64 * number as usize + offset;
            old.push((at, self.console.journal[at]));
            self.say(&format!("poke {at} {byte}"));
        }
        if self.rng.chance(10) {
            // The live session does not look at what was poked.
            self.ask();
            self.stretch();
        }
        let places = [
            64 * count,
            64 * count,
            64 * count + 5,
            64 * number,
            64 * number + 63,
            64 * (number + 1),
            JOURNAL as u64,
        ];
        for _ in 0..self.rng.between(1, 2) {
            let place = self.rng.pick(&places);
            self.restore_at(place);
            if self.rng.chance(35) {
                self.say("status");
            }
            if self.rng.chance(30) {
                self.ask();
            }
            if self.rng.chance(10) {
                self.stretch();
            }
        }
        if self.rng.chance(85) {
            for (at, byte) in old {
                self.say(&format!("poke {at} {byte}"));
            }
            self.restore_at(64 * count);
            if self.rng.chance(30) {
                self.say("status");
            }
        }
    }

    /// Lines of good form with numbers from the edges.
    fn wild(&mut self) {
        let edge = |rng: &mut Rng| rng.pick(&EDGES);
        let (mut kind, mut rank, mut bank) = self.any_command();
        let which = self.rng.pick(&[0, 1, 2, 3, 4, 4, 5, 6, 7]);
        if which & 1 != 0 {
            kind = edge(&mut self.rng);
        }
        if which & 2 != 0 {
            rank = edge(&mut self.rng);
        }
        if which & 4 != 0 {
            bank = match kind {
                PREAB | REFAB => self.rng.between(1, 17),
                _ => edge(&mut self.rng),
            };
        }
        let word = self.kind_word(kind);
        match self.rng.below(13) {
            0..=3 => {
                self.say(&format!("ask {word} {rank} {bank}"));
            }
            4..=9 => {
                let last = self.last();
                // Often a second refusal, so that their order shows.
                let cycle = match self.rng.below(6) {
                    0 => edge(&mut self.rng),
                    1 => self.rng.pick(&[LAST_CYCLE + 1, 1 << 63, u64::MAX]),
                    2 => last,
                    3 => last.saturating_sub(1),
                    4 => last + 1,
                    _ => last + self.rng.below(300),
                };
                self.offer_at((kind, rank, bank), cycle);
            }
            10 => {
                let bytes = edge(&mut self.rng);
                self.say(&format!("lend {bytes}"));
                self.stretch();
                if self.rng.chance(70) {
                    self.say(&format!("lend {}", u64::MAX));
                }
            }
            11 => {
                let end = 64 * self.count();
                let bytes = edge(&mut self.rng);
                self.restore_at(bytes);
                if self.rng.chance(70) {
                    self.restore_at(end);
                }
            }
            _ => {
                // Damage that is put right again at once.
                let at = edge(&mut self.rng);
                let byte = edge(&mut self.rng);
                let old = self.console.journal.get(at as usize).copied();
                self.say(&format!("poke {at} {byte}"));
                if let Some(old) = old {
                    self.say(&format!("poke {at} {old}"));
                }
            }
        }
    }

    // Malformed text.

    /// A line of good form that does no lasting harm if it is taken as such.
    fn some_line(&mut self) -> String {
        if self.forms.gaps && self.rng.chance(15) {
            return any_sheet(&mut self.rng).to_string();
        }
        if self.forms.bursts && self.rng.chance(15) {
            return self.some_burst_line();
        }
        let (kind, rank, bank) = self.any_command();
        let word = self.kind_word(kind);
        let (earliest, _) = self.earliest((kind, rank, bank));
        match self.rng.below(12) {
            0 => {
                let gaps: Vec<String> = self.gaps().iter().map(u16::to_string).collect();
                let mode = self.rng.pick(&[0, 1, 2]);
                format!("open 1 2 {mode} {} {}", self.client(), gaps.join(" "))
            }
            1..=3 => format!("offer {word} {rank} {bank} {earliest}"),
            4 | 5 => format!("ask {word} {rank} {bank}"),
            6 => "back".to_string(),
            7 => "status".to_string(),
            8 => "stretch".to_string(),
            9 => format!("lend {JOURNAL}"),
            10 => format!("restore {}", 64 * self.count()),
            _ => format!("bytes {} 1", self.rng.below(200)),
        }
    }

    fn line_of_length(&mut self) -> Vec<u8> {
        let length = self.rng.pick(&[
            LONGEST_LINE - 1,
            LONGEST_LINE,
            LONGEST_LINE,
            LONGEST_LINE + 1,
            LONGEST_LINE + 1,
            LONGEST_LINE + 2,
            2 * LONGEST_LINE - 1,
            2 * LONGEST_LINE,
            2 * LONGEST_LINE + 1,
            3 * LONGEST_LINE,
            70_000,
        ]);
        let returned = self.rng.chance(30);
        // The return counts towards the length.
        let length = length - usize::from(returned);
        let text = self.some_line().into_bytes();
        let missing = length - text.len();
        let mut sent = match self.rng.below(7) {
            0 => [text, vec![b' '; missing]].concat(),
            1 => [vec![b'\t'; missing], text].concat(),
            2 => {
                let mut comment = vec![b'#'; length];
                comment[length / 2] = b' ';
                comment
            }
            3 => vec![b' '; length],
            4 => {
                let zeros = length - "lend 4194304".len();
                [b"lend ".to_vec(), vec![b'0'; zeros], b"4194304".to_vec()].concat()
            }
            5 => [
                b"# ".to_vec(),
                vec![b'x'; missing.saturating_sub(3)],
                vec![b' '],
                text,
            ]
            .concat(),
            _ => vec![b'7'; length],
        };
        if returned {
            sent.push(b'\r');
        }
        sent.push(b'\n');
        sent
    }

    fn malformed(&mut self) {
        if self.forms.gaps && self.rng.chance(12) {
            let line = malformed_gaps_line(&mut self.rng);
            self.say(&line);
            return;
        }
        if self.forms.bursts && self.rng.chance(12) {
            self.malformed_burst();
            return;
        }
        let line = self.some_line();
        let mut words: Vec<Vec<u8>> = line.split(' ').map(|w| w.as_bytes().to_vec()).collect();
        let some = self.rng.below(words.len() as u64) as usize;
        let mut ending: &[u8] = b"\n";
        match self.rng.below(22) {
            0 => {
                words.remove(some);
            }
            1 => {
                let word = self
                    .rng
                    .pick(&["0", "1", "x", "#", "-", "?", "status", "\r", "\u{b}"]);
                let at = self.rng.pick(&[some, words.len()]);
                words.insert(at, word.as_bytes().to_vec());
            }
            2 => {
                let sign = self.rng.pick(b"+-.,'\"");
                let at = match self.rng.chance(70) {
                    true => 0,
                    false => words[some].len(),
                };
                words[some].insert(at, sign);
            }
            3 => {
                words[some] = self
                    .rng
                    .pick(&[
                        "1.0", "1e3", "0x10", "1_000", "1,000", "-0", "+0", "NaN", "\u{663}",
                        "\u{ff11}", "\u{b2}", "1u64", "0b1", "''", "\u{0}", "1\u{0}", "/", ":",
                        "1:", "/1",
                    ])
                    .as_bytes()
                    .to_vec();
            }
            4 => {
                let large = self.rng.pick(&TOO_LARGE);
                let zeros = self.rng.pick(&["", "", "0", "0000000000000000000000"]);
                let at = words.len() - 1;
                let at = self.rng.pick(&[some, at]);
                words[at] = format!("{zeros}{large}").into_bytes();
            }
            5 => {
                let byte = self.rng.pick(&[
                    0, 1, 7, 8, 9, 11, 12, 13, 14, 27, 28, 31, 127, 32, 33, 47, 58,
                ]);
                let at = self.rng.below(words[some].len() as u64 + 1) as usize;
                words[some].insert(at, byte);
            }
            6 => {
                let byte = self.rng.between(128, 255) as u8;
                let at = self.rng.below(words[some].len() as u64 + 1) as usize;
                words[some].insert(at, byte);
            }
            7 => {
                let length = self.rng.between(1, 40);
                let mut noise: Vec<u8> = (0..length).map(|_| self.rng.draw() as u8).collect();
                noise.retain(|b| *b != b'\n');
                words = vec![noise];
            }
            8 => {
                let text = String::from_utf8_lossy(&words[0]).into_owned();
                let mut other = text.to_uppercase();
                if self.rng.chance(50) {
                    other = format!("{}{}", &other[..1], &text[1..]);
                }
                words[0] = other.into_bytes();
            }
            9 => {
                let wrong = self.rng.pick(&NO_KINDS);
                let text = if self.rng.chance(50) {
                    format!("ask {wrong} 0 0")
                } else {
                    format!("offer {wrong} 0 0 5")
                };
                words = vec![text.into_bytes()];
            }
            10 => {
                let text: &[u8] = self.rng.pick(&[
                    b"status\r\r\n".as_slice(),
                    b"\rstatus\n",
                    b"status\rstatus\n",
                    b"status \r \n",
                    b"status \r\n",
                    b"\r\n",
                    b" \r\n",
                    b"\r\r\n",
                    b"\r \r\n",
                    b"back\r\r\n",
                    b"lend 4194304\r\n",
                    b"lend\r4194304\n",
                    b"lend 4194304\r0\n",
                    b"#\r\n",
                    b"\r#\n",
                ]);
                self.send(text.to_vec());
                return;
            }
            11 => {
                let text: &[u8] = self.rng.pick(&[
                    b"\n".as_slice(),
                    b" \n",
                    b"\t\n",
                    b"  \t \t\n",
                    b"\x0b\n",
                    b"\x0c\n",
                    b"\x00\n",
                    b"\xa0\n",
                    b"\xc2\xa0\n",
                    b"\xff\n",
                    b"\xef\xbb\xbfstatus\n",
                ]);
                self.send(text.to_vec());
                return;
            }
            12 => {
                let text: &[u8] = self.rng.pick(&[
                    b"#\n".as_slice(),
                    b"# open a client\n",
                    b"  #x\n",
                    b"\t# status\n",
                    b"#status\n",
                    b"# \xff\x00\xfe\n",
                    b"##\n",
                    b"status # now\n",
                    b"status #\n",
                    b"status#\n",
                    b"'# x\n",
                ]);
                self.send(text.to_vec());
                return;
            }
            13 | 14 => {
                let sent = self.line_of_length();
                self.send(sent);
                return;
            }
            15 => {
                let gaps: Vec<String> = self.gaps().iter().map(u16::to_string).collect();
                let gaps = gaps.join(" ");
                let one_less = gaps.rsplit_once(' ').map_or("", |g| g.0);
                let text = match self.rng.below(8) {
                    0 => format!("open 1 1 0 4294967296 {gaps}"),
                    1 => format!("open 1 1 0 4294967295 {one_less} 65536"),
                    2 => format!("open 1 1 0 7 65536 {one_less}"),
                    3 => format!("open 1 1 0 7 {one_less}"),
                    4 => format!("open 1 1 0 7 {gaps} 0"),
                    5 => format!("open 0 3 2 4294967296 {gaps}"),
                    6 => format!("open 18446744073709551616 1 0 7 {gaps}"),
                    _ => format!("open 18446744073709551615 1 0 7 {gaps}"),
                };
                words = vec![text.into_bytes()];
            }
            16 => {
                let text = self.rng.pick(&[
                    "quit",
                    "help",
                    "?",
                    "exit",
                    "list",
                    "opens",
                    "ope",
                    "of fer",
                    "offer",
                    "ask",
                    "open",
                    "lend",
                    "restore",
                    "poke",
                    "bytes",
                    "back 1",
                    "status 0",
                    "stretch 0",
                    "--help",
                    "0",
                    "ACT 0 0 0",
                ]);
                words = vec![text.as_bytes().to_vec()];
            }
            17 => {
                let text = self.rng.pick(&[
                    "poke 0 256",
                    "poke 0 511",
                    "poke 4194304 0",
                    "poke 4194303 0",
                    "poke 18446744073709551615 0",
                    "poke 0 18446744073709551616",
                    "poke 0",
                    "poke 0 0 0",
                    "bytes 4194304 0",
                    "bytes 4194305 0",
                    "bytes 4194304 1",
                    "bytes 4194303 1",
                    "bytes 4194303 2",
                    "bytes 18446744073709551615 1",
                    "bytes 1 18446744073709551615",
                    "bytes 18446744073709551615 18446744073709551615",
                    "bytes 9223372036854775808 9223372036854775808",
                    "bytes 0",
                    "bytes 0 1 2",
                ]);
                words = vec![text.as_bytes().to_vec()];
            }
            18 => {
                // Blanks that are none.
                let blank: &[u8] = self.rng.pick(&[
                    b"\xc2\xa0".as_slice(),
                    b"\x0b",
                    b"\x0c",
                    b"\xe2\x80\x83",
                    b"\r",
                    b"\x00",
                ]);
                words = vec![words.join(blank)];
            }
            19 => {
                let joined = words.concat();
                words = vec![joined];
            }
            20 => {
                ending = b"\r\n";
                words.push(b"\r".to_vec());
            }
            _ => {
                words.insert(0, b"".to_vec());
                ending = b" \t\r\n";
            }
        }
        let mut sent = words.join(&b' ');
        sent.extend_from_slice(ending);
        self.send(sent);
    }

    // Playing.

    fn acts(&self) -> &'static [(Act, u64)] {
        use Act::*;
        match self.mood {
            Mood::Steady => &[
                (Offer, 60),
                (Run, 4),
                (Ask, 8),
                (Sweep, 1),
                (Back, 4),
                (Status, 2),
                (Bytes, 2),
                (Stretch, 1),
                (OtherOpening, 1),
                (SpoilOpening, 1),
                (Columns, 3),
                (Refreshes, 6),
                (Losses, 3),
                (Banks, 4),
            ],
            Mood::SecondThoughts => &[
                (Offer, 40),
                (Run, 2),
                (Ask, 10),
                (Sweep, 1),
                (Back, 25),
                (BackRun, 6),
                (ToTheBottom, 1),
                (Status, 4),
                (CutAndReturn, 1),
                (Open, 1),
                (OtherOpening, 1),
                (SpoilOpening, 1),
                (Columns, 3),
                (Refreshes, 6),
                (Losses, 3),
                (Banks, 4),
            ],
            Mood::Deep => &[
                (Run, 20),
                (Offer, 6),
                (Back, 6),
                (ToTheBottom, 3),
                (Status, 2),
                (CutAndReturn, 1),
                (Open, 1),
                (OtherOpening, 1),
                (SpoilOpening, 1),
                (Columns, 2),
                (Refreshes, 5),
                (Losses, 3),
                (Banks, 4),
            ],
            Mood::Clients => &[
                (Offer, 50),
                (Ask, 8),
                (Back, 8),
                (BackRun, 1),
                (Status, 5),
                (Stretch, 4),
                (Open, 8),
                (OpenBadly, 5),
                (Cut, 2),
                (CutAndReturn, 4),
                (Damage, 1),
                (Lend, 1),
                (OtherOpening, 3),
                (SpoilOpening, 1),
                (Columns, 3),
                (Refreshes, 6),
                (Losses, 3),
                (Banks, 4),
            ],
            Mood::TwoRanks => &[
                (Offer, 60),
                (Run, 2),
                (Ask, 12),
                (Sweep, 2),
                (Back, 8),
                (BackRun, 1),
                (Status, 2),
                (CutAndReturn, 1),
                (Open, 1),
                (OtherOpening, 1),
                (SpoilOpening, 1),
                (Columns, 3),
                (Refreshes, 6),
                (Losses, 3),
                (Banks, 4),
            ],
            Mood::FourActivates => &[
                (Offer, 50),
                (Run, 2),
                (Ask, 12),
                (Back, 16),
                (BackRun, 4),
                (Status, 1),
                (CutAndReturn, 1),
                (Open, 2),
                (OtherOpening, 1),
                (SpoilOpening, 1),
                (Columns, 2),
                (Refreshes, 5),
                (Losses, 3),
                (Banks, 4),
            ],
            Mood::Limit => &[
                (Offer, 40),
                (Ask, 12),
                (Sweep, 2),
                (Back, 12),
                (BackRun, 3),
                (ToTheBottom, 1),
                (Status, 4),
                (Wild, 4),
                (CutAndReturn, 2),
                (Damage, 1),
                (Open, 6),
                (OtherOpening, 2),
                (SpoilOpening, 1),
                (Columns, 2),
                (Refreshes, 5),
                (Losses, 3),
                (Banks, 4),
            ],
            Mood::Room => &[
                (Offer, 20),
                (Ask, 4),
                (Back, 6),
                (Status, 4),
                (Stretch, 3),
                (Bytes, 4),
                (Open, 2),
                (Lend, 12),
                (FillRoom, 10),
                (Cut, 2),
                (CutAndReturn, 2),
                (OtherOpening, 2),
                (SpoilOpening, 1),
                (Columns, 2),
                (Refreshes, 5),
                (Losses, 3),
                (Banks, 4),
            ],
            Mood::Cuts => &[
                (Offer, 40),
                (Run, 1),
                (Ask, 5),
                (Back, 10),
                (BackRun, 2),
                (Status, 3),
                (Stretch, 2),
                (Bytes, 2),
                (Open, 2),
                (OpenBadly, 1),
                (Lend, 1),
                (Cut, 5),
                (CutAndReturn, 12),
                (OtherOpening, 2),
                (SpoilOpening, 1),
                (Columns, 2),
                (Refreshes, 5),
                (Losses, 3),
                (Banks, 4),
            ],
            Mood::Damage => &[
                (Offer, 40),
                (Run, 1),
                (Ask, 3),
                (Back, 8),
                (BackRun, 1),
                (Status, 2),
                (Bytes, 1),
                (Open, 2),
                (CutAndReturn, 2),
                (Damage, 16),
                (OtherOpening, 3),
                (SpoilOpening, 1),
                (Columns, 2),
                (Refreshes, 5),
                (Losses, 3),
                (Banks, 4),
            ],
            Mood::Malformed => &[
                (Offer, 25),
                (Ask, 4),
                (Back, 4),
                (Status, 4),
                (Open, 1),
                (Malformed, 50),
                (OtherOpening, 1),
                (SpoilOpening, 1),
                (Columns, 2),
                (Refreshes, 5),
                (Losses, 3),
                (Banks, 4),
            ],
            Mood::Wild => &[
                (Offer, 25),
                (Ask, 4),
                (Back, 5),
                (Status, 3),
                (Bytes, 3),
                (Open, 2),
                (OpenBadly, 6),
                (Wild, 40),
                (Malformed, 3),
                (Lend, 2),
                (OtherOpening, 2),
                (SpoilOpening, 1),
                (Columns, 2),
                (Refreshes, 5),
                (Losses, 3),
                (Banks, 4),
            ],
            Mood::Mixed => &[
                (Offer, 60),
                (Run, 1),
                (Ask, 10),
                (Sweep, 1),
                (Back, 10),
                (BackRun, 2),
                (ToTheBottom, 1),
                (Status, 4),
                (Stretch, 2),
                (Bytes, 3),
                (Open, 2),
                (OpenBadly, 2),
                (Lend, 2),
                (FillRoom, 1),
                (Cut, 2),
                (CutAndReturn, 2),
                (Damage, 3),
                (Malformed, 6),
                (Wild, 5),
                (OtherOpening, 3),
                (SpoilOpening, 1),
                (Columns, 3),
                (Refreshes, 6),
                (Losses, 3),
                (Banks, 4),
            ],
        }
    }

    fn act(&mut self) {
        if self.rng.chance(2) {
            self.new_habits();
        }
        if self.mood == Mood::Limit && self.last() >= LAST_CYCLE - 3 && self.rng.chance(25) {
            self.leave_the_limit();
        }
        let acts = self.acts();
        match self.rng.weighed(acts) {
            Act::Offer => self.offer(),
            Act::Run if self.mood == Mood::Deep => self.deep_run(),
            Act::Run => {
                let count = self.rng.between(3, 12);
                self.run(count);
            }
            Act::Ask => self.ask(),
            Act::Sweep => self.sweep(),
            Act::Back => self.back(),
            Act::BackRun => self.back_run(),
            Act::ToTheBottom => self.back_to_bottom(),
            Act::Status => {
                self.say("status");
            }
            Act::Stretch => self.stretch(),
            Act::Bytes => self.bytes(),
            Act::Open => self.open(),
            Act::OpenBadly => self.open_badly(),
            Act::OtherOpening => self.other_opening(),
            Act::SpoilOpening => self.spoil_opening(),
            Act::Columns => self.columns(),
            Act::Refreshes => self.refreshes(),
            Act::Losses => self.losses(),
            Act::Banks => self.banks(),
            Act::Lend => self.lend(),
            Act::FillRoom => self.fill_room(),
            Act::Cut => self.cut(),
            Act::CutAndReturn => self.cut_and_return(),
            Act::Damage => self.damage(),
            Act::Malformed => self.malformed(),
            Act::Wild => self.wild(),
        }
    }

    /// The calls before any session, in some order.
    fn beginning(&mut self) {
        if self.forms.gaps && self.rng.chance(40) {
            self.ask_for_gaps();
        }
        self.bursts_without_a_session();
        for _ in 0..self.rng.below(6) {
            match self.rng.below(9) {
                0 => self.offer(),
                1 => self.ask(),
                2 => self.back(),
                3 => {
                    self.say("status");
                }
                4 => {
                    self.say("stretch");
                }
                5 => self.open_badly(),
                6 => {
                    let bytes = self.rng.pick(&[0, 1, 63, 64, 65, 4_194_304, u64::MAX]);
                    self.restore_at(bytes);
                }
                7 => self.wild(),
                _ => self.malformed(),
            }
        }
    }

    /// Mostly a line without a newline, which is answered and not played: also one that would be accepted, or ask nothing.
    fn last_line(&mut self) -> Vec<u8> {
        if self.forms.gaps && self.rng.chance(10) {
            return any_sheet(&mut self.rng).to_string().into_bytes();
        }
        if self.forms.bursts && self.rng.chance(10) {
            return self.some_burst_line().into_bytes();
        }
        let (kind, rank, bank) = self.command();
        let (earliest, _) = self.earliest((kind, rank, bank));
        let offer = format!("offer {kind} {rank} {bank} {earliest}").into_bytes();
        let opening = format!("open 1 2 0 7{}", " 32".repeat(20)).into_bytes();
        match self.rng.below(12) {
            0 => b"status\n".to_vec(),
            1 => b"status\r\n".to_vec(),
            2 | 3 => self.rng.pick(&[" ", "\t ", "\r", " \r"]).into(),
            4 | 5 => self.rng.pick(&["# end", "#", " # status", "#\r"]).into(),
            6 | 7 => offer,
            8 => opening,
            // The last gap has lost a digit: of good form, and not what was meant.
            9 => opening[..opening.len() - 1].to_vec(),
            10 => [b"#".repeat(LONGEST_LINE), b"back".to_vec()].concat(),
            _ => {
                let lines = ["status", "status\r", "back", "ask ACT 0 0", "bytes 0 64"];
                self.rng.pick(&lines).into()
            }
        }
    }

    fn play(&mut self) {
        // An act may fill the script; the last line has its place all the same.
        self.most = self.most.saturating_sub(1);
        let ending = 6.min(self.most);
        // Moods of long runs end with as many take-backs as there can be.
        let long = matches!(
            self.mood,
            Mood::Steady | Mood::TwoRanks | Mood::FourActivates | Mood::Cuts
        );
        let mut bottom = long && self.rng.chance(60);
        self.beginning();
        self.open();
        while self.lines.len() + ending < self.most {
            if bottom && self.lines.len() + ending + 110 > self.most {
                bottom = false;
                if self.rng.chance(40) {
                    let end = 64 * self.count();
                    self.restore_at(end);
                }
                self.back_to_bottom();
            }
            // A script without a session, or without room, says little.
            if self.console.state.session().is_none() && self.rng.chance(60) {
                self.open();
            }
            let full = self.console.lent < 64 * (self.count() as usize + 1);
            if full
                && self
                    .rng
                    .chance(if self.mood == Mood::Room { 15 } else { 50 })
            {
                self.say(&format!("lend {}", u64::MAX));
            }
            self.gaps_now_and_then();
            self.bursts_now_and_then();
            self.act();
        }
        self.end();
    }

    fn end(&mut self) {
        self.say("status");
        let end = 64 * self.count();
        self.say(&format!("bytes {} 192", end.saturating_sub(128)));
        self.say("lend 4194304");
        self.say("stretch");
        self.restore_at(end);
        self.say("status");
        self.most += 1;
        let last = self.last_line();
        self.send(last);
    }
}

/// The ways in which a stored record can be bad.
#[derive(Clone, Copy, Debug, PartialEq, Eq)]
pub enum Bad {
    OtherByte0,
    Spare,
    OtherOpening,
    /// An opening of an edition that nobody knows.
    UnknownEdition,
    /// Content that the live call would refuse with this number.
    Refused(u64),
}

pub const BADS: [Bad; 14] = [
    Bad::OtherByte0,
    Bad::Spare,
    Bad::OtherOpening,
    Bad::UnknownEdition,
    Bad::Refused(1),
    Bad::Refused(2),
    Bad::Refused(3),
    Bad::Refused(4),
    Bad::Refused(5),
    Bad::Refused(6),
    Bad::Refused(7),
    Bad::Refused(8),
    Bad::Refused(10),
    Bad::Refused(12),
];

/// A good journal with one record made bad in this one way, the rest behind it,
/// and the number of the bad record; none if this journal has no place for it.
pub fn spoil(rng: &mut Rng, good: &[u8], way: Bad) -> Option<(Vec<u8>, usize)> {
    let count = good.len() / RECORD;
    if count == 0 {
        return None;
    }
    let mut at = rng.below(count as u64) as usize;
    let mut front = good[..RECORD * at].to_vec();
    let mut record = good[RECORD * at..RECORD * (at + 1)].to_vec();
    let (_, _, state) = State::restore(&front);
    let session = state.session();
    let last = state.survivors().last().map(|s| s.cycle);
    let earliest = |kind: u64, rank: u64, bank: u64| state.earliest(kind, rank, bank).0 as u64;
    let command = |kind: u64, rank: u64, bank: u64, cycle: u64| {
        let command = Command {
            kind,
            rank,
            bank,
            cycle,
        };
        let opening = session.map_or(0, |s| s.0);
        bytes_of(&Record::Command(command), opening).to_vec()
    };
    match way {
        Bad::OtherByte0 => {
            let any = rng.between(4, 255) as u8;
            record[0] = rng.pick(&[0, 4, 5, 255, 129, 130, 131, any]);
        }
        Bad::Spare => {
            let spare: Vec<usize> = match record[0] {
                1 => (49..64).collect(),
                2 => (16..64).collect(),
                _ => (1..4).chain(8..64).collect(),
            };
            let ends = [spare[0], spare[spare.len() - 1]];
            let any = rng.pick(&spare);
            let place = rng.pick(&[ends[0], ends[1], any, any]);
            record[place] = rng.between(1, 255) as u8;
        }
        Bad::OtherOpening => {
            if record[0] == 1 {
                return None;
            }
            let right = u32::from_le_bytes(record[4..8].try_into().ok()?);
            let any = rng.draw() as u32;
            let wrong = rng.pick(&[
                0,
                right.wrapping_add(1),
                right.wrapping_sub(1),
                right ^ 0x0100_0000,
                right ^ 0x0001_0000,
                right ^ 0x0100,
                at as u32,
                u32::MAX,
                any,
            ]);
            if wrong == right {
                return None;
            }
            record[4..8].copy_from_slice(&wrong.to_le_bytes());
        }
        Bad::UnknownEdition => {
            let opening = session?.1;
            record = bytes_of(&Record::Opening(opening), 0).to_vec();
            let unknown = NEWEST_EDITION as u8 + 1;
            let any = rng.between(u64::from(unknown), 255) as u8;
            record[EDITION_AT] = rng.pick(&[unknown, unknown, 255, any]);
        }
        Bad::Refused(1) => {
            // A journal that begins with no opening.
            front.clear();
            at = 0;
            let take_back = bytes_of(&Record::TakeBack, 0).to_vec();
            let act = bytes_of(
                &Record::Command(Command {
                    kind: ACT,
                    rank: 0,
                    bank: 0,
                    cycle: 0,
                }),
                0,
            )
            .to_vec();
            record = if rng.chance(50) { act } else { take_back };
        }
        Bad::Refused(2) => {
            session?;
            record = command(rng.pick(&[0, 8, 9, 128, 255]), 0, 0, last? + 70_000);
        }
        Bad::Refused(3) => {
            let ranks = session?.1.ranks;
            let rank = rng.pick(&[ranks, ranks, 3, 128, 255]);
            let kind = rng.between(1, 7);
            record = command(kind, rank, 0, last.map_or(0, |l| l + 70_000));
        }
        Bad::Refused(4) => {
            let kind = rng.between(1, 7);
            let bank = match kind {
                PREAB | REFAB => rng.pick(&[1, 2, 15, 16, 255]),
                _ => rng.pick(&[16, 17, 31, 128, 255]),
            };
            session?;
            record = command(kind, 0, bank, last.map_or(0, |l| l + 70_000));
        }
        Bad::Refused(5) => {
            session?;
            let above = rng.pick(&[LAST_CYCLE + 1, LAST_CYCLE + 2, 1 << 48, 1 << 63, u64::MAX]);
            let kind = rng.pick(&[ACT, RD, WR, PREPB, REFPB]);
            record = command(kind, 0, rng.below(16), above);
        }
        Bad::Refused(6) => {
            let last = last?;
            let not_later = rng.pick(&[last, last, last.saturating_sub(1), 0]);
            let kind = rng.pick(&[ACT, RD, WR, PREPB, REFPB]);
            record = command(kind, 0, rng.below(16), not_later);
        }
        Bad::Refused(7) => {
            let after_last = last? + 1;
            let ranks = session?.1.ranks;
            let early = rng.chance(50).then(|| rng.below(ranks));
            if let Some(mut list) = early.and_then(|rank| early_refresh(rng, &state, rank)) {
                // Behind a precharge that is put before it.
                let last = list.pop()?;
                for c in list {
                    front.extend(command(c.kind, c.rank, c.bank, c.cycle));
                }
                record = command(last.kind, last.rank, last.bank, last.cycle);
                return joined(front, record, good, at);
            }
            for _ in 0..40 {
                let kind = rng.between(1, 7);
                let bank = match kind {
                    PREAB | REFAB => 0,
                    _ => rng.below(16),
                };
                let rank = rng.below(ranks);
                let (kind, rank, bank) = fitted(rng, &state, (kind, rank, bank));
                let earliest = earliest(kind, rank, bank);
                if earliest > after_last && earliest - 1 <= LAST_CYCLE {
                    record = command(kind, rank, bank, earliest - 1);
                    return joined(front, record, good, at);
                }
            }
            return None;
        }
        Bad::Refused(8) => {
            // As many take-backs as there are, and one more.
            let opening = session?.0;
            record = bytes_of(&Record::TakeBack, opening).to_vec();
            for _ in 0..state.depth() {
                front.extend_from_slice(&record);
            }
        }
        Bad::Refused(12) => {
            let ranks = session.filter(|_| state.judges_banks())?.1.ranks;
            let rank = rng.below(ranks);
            let place = wrong_place(rng, &state, rank)?;
            let cycle = wrong_cycle(rng, &state, place)?;
            record = command(place.0, rank, place.2, cycle);
        }
        Bad::Refused(_) => {
            let opening = session?.1;
            record = bytes_of(&Record::Opening(opening), 0).to_vec();
            match rng.below(3) {
                0 => record[1] = rng.pick(&[0, 3, 5, 8, 128, 255]),
                1 => record[2] = rng.pick(&[0, 3, 4, 255]),
                _ => record[3] = rng.pick(&[3, 4, 128, 255]),
            }
        }
    }
    joined(front, record, good, at)
}

fn joined(mut front: Vec<u8>, record: Vec<u8>, good: &[u8], at: usize) -> Option<(Vec<u8>, usize)> {
    let number = front.len() / RECORD;
    front.extend_from_slice(&record);
    front.extend_from_slice(&good[(RECORD * (at + 1)).min(good.len())..]);
    Some((front, number))
}

#[cfg(test)]
mod tests {
    use super::*;
    use crate::sheet::Sheet;
    use crate::sheet_calls::wrong;
    use std::collections::{BTreeMap, BTreeSet};

    const NO_FORMS: Forms = Forms {
        gaps: false,
        bursts: false,
    };
    const WITH_GAPS: Forms = Forms {
        gaps: true,
        ..NO_FORMS
    };

    /// The sheet of a line that was answered.
    fn sheet_sent(line: &Line) -> Sheet {
        let text = String::from_utf8(line.sent.clone()).unwrap();
        let mut numbers = text.split_whitespace().skip(1).map(|w| w.parse().unwrap());
        let tck = numbers.next().unwrap();
        let times = [(); 20].map(|()| numbers.next().unwrap());
        Sheet { tck, times }
    }

    fn answer_of(line: &Line) -> &str {
        let answer = line.answer.as_deref().unwrap_or_default();
        std::str::from_utf8(answer).unwrap()
    }

    /// What a script's `gaps` lines, and the openings behind them, come to.
    fn gaps_seen(script: &Script) -> Vec<String> {
        let mut seen = Vec::new();
        let (mut told, mut is_open) = (String::new(), false);
        for line in &script.lines {
            let sent = String::from_utf8_lossy(&line.sent);
            let words: Vec<&str> = answer_of(line).splitn(4, ' ').collect();
            match words.as_slice() {
                ["gaps", number, gap, gaps] => {
                    seen.push(format!("gaps {number}"));
                    seen.push(format!("gap {gap}"));
                    seen.push(format!("{:?}", script.mood));
                    seen.push(format!("in a session: {is_open}"));
                    if *number == "0" {
                        told = gaps.to_string();
                    }
                }
                ["?"] if sent.trim().starts_with("gaps ") => {
                    seen.push(format!("malformed, whole: {}", sent.ends_with('\n')));
                }
                ["open", "0"] => {
                    is_open = true;
                    if !told.is_empty() && sent.trim().ends_with(&told) {
                        seen.push("opened as told".to_string());
                    }
                }
                _ => {}
            }
        }
        seen
    }

    /// In every mood: told and refused, each gap named, before a session, malformed, cut short, opened with.
    #[test]
    fn scripts_reach_every_answer_to_gaps() {
        let mut seen: BTreeMap<String, u64> = BTreeMap::new();
        for seed in 0..104 {
            for key in gaps_seen(&script_with(seed, 500, WITH_GAPS)) {
                *seen.entry(key).or_default() += 1;
            }
        }
        let mut due = vec![
            ("in a session: false".to_string(), 20),
            ("in a session: true".to_string(), 500),
            ("malformed, whole: true".to_string(), 100),
            ("malformed, whole: false".to_string(), 3),
            ("opened as told".to_string(), 50),
        ];
        due.extend([0, 13, 14].map(|number| (format!("gaps {number}"), 50)));
        due.extend((0..=20).map(|gap| (format!("gap {gap}"), 3)));
        due.extend(MOODS.map(|mood| (format!("{mood:?}"), 10)));
        for (key, least) in due {
            assert!(
                seen.get(&key).is_some_and(|n| *n >= least),
                "{key}: {seen:?}"
            );
        }
    }

    #[test]
    fn scripts_without_gaps_lines_have_none() {
        for seed in 0..26 {
            assert!(gaps_seen(&script_with(seed, 200, NO_FORMS)).is_empty());
        }
    }

    /// Each wrong program is found by some of a hundred scripts.
    #[test]
    fn scripts_tell_wrong_gaps() {
        let mut sent = Vec::new();
        for seed in 0..104 {
            let lines = script_with(seed, 500, WITH_GAPS).lines;
            let asked = lines
                .into_iter()
                .filter(|l| answer_of(l).starts_with("gaps "));
            sent.push(asked.collect::<Vec<Line>>());
        }
        for (name, call) in wrong::programs() {
            let differs = |line: &Line| {
                let Sheet { tck, times } = sheet_sent(line);
                call(tck, times).to_string() != answer_of(line)
            };
            let count = sent
                .iter()
                .filter(|lines| lines.iter().any(differs))
                .count();
            assert!(count >= 5, "{name}: {count} of 104");
        }
    }

    #[test]
    fn a_seed_gives_one_script() {
        for seed in [0, 5, 9, 12] {
            let (one, other) = (script(seed, 120), script(seed, 120));
            assert_eq!(one.lines.len(), 120);
            assert_eq!(one.input(), other.input());
            assert_eq!(one.output(), other.output());
            assert_eq!(one.left, other.left);
        }
    }

    /// Scripts end in every way, and what is cut short would often have been accepted.
    #[test]
    fn scripts_end_without_a_newline() {
        let (mut cut, mut silent, mut opened, mut offered) = (0, 0, 0, 0);
        for seed in 0..156 {
            let lines = script(seed, 120).lines;
            let (last, before) = lines.split_last().unwrap();
            if last.sent.ends_with(b"\n") {
                continue;
            }
            assert_eq!(last.answer.as_deref(), Some(b"?".as_slice()));
            let mut console = Console::new();
            for line in before {
                console.feed(&line.sent);
            }
            let whole = console.feed(&[&last.sent, b"\n".as_slice()].concat());
            cut += 1;
            silent += usize::from(whole.is_empty());
            opened += usize::from(whole.starts_with(b"open 0"));
            offered += usize::from(whole.starts_with(b"offer 0"));
        }
        let counts = [cut, silent, opened, offered];
        assert!(cut >= 70 && silent >= 20, "{counts:?}");
        assert!(opened >= 5 && offered >= 5, "{counts:?}");
    }

    /// A script that reaches little could not show a fault.
    #[test]
    fn scripts_reach_every_answer() {
        let mut seen: BTreeMap<String, u64> = BTreeMap::new();
        for seed in 0..104 {
            for answer in script(seed, 500)
                .lines
                .iter()
                .filter_map(|l| l.answer.as_ref())
            {
                let text = String::from_utf8_lossy(answer).into_owned();
                let words: Vec<&str> = text.split(' ').collect();
                let mut keys = vec![words.iter().take(2).copied().collect::<Vec<_>>().join(" ")];
                match words.as_slice() {
                    ["offer", "7", _, gap, _] | ["ask", "0", _, gap, _] => {
                        keys.push(format!("{} gap {gap}", words[0]));
                    }
                    ["status", "0", _, _, survivors, depth, ..] => {
                        keys.push(format!("depth {depth}"));
                        if *depth == "0" && *survivors != "0" {
                            keys.push("survivors below depth 0".to_string());
                        }
                    }
                    _ => {}
                }
                for key in keys {
                    *seen.entry(key).or_default() += 1;
                }
            }
        }
        let calls: [(&str, &[u64]); 6] = [
            ("open", &[0, 9, 10]),
            ("offer", &[0, 1, 2, 3, 4, 5, 6, 7, 9, 12]),
            ("ask", &[0, 1, 2, 3, 4]),
            ("back", &[0, 1, 8, 9]),
            ("status", &[0, 1]),
            ("restore", &[0, 11]),
        ];
        for (call, numbers) in calls {
            for number in numbers {
                let key = format!("{call} {number}");
                assert!(seen.get(&key).is_some_and(|n| *n >= 20), "{key}");
            }
        }
        for gap in 1..=20 {
            for call in ["offer", "ask"] {
                let key = format!("{call} gap {gap}");
                assert!(seen.get(&key).is_some_and(|n| *n >= 10), "{key}");
            }
        }
        for key in ["?", "stretch 0", "depth 64", "survivors below depth 0"] {
            assert!(seen.get(key).is_some_and(|n| *n >= 10), "{key}");
        }
    }

    /// Each way to be bad makes a bad record of the number that is said, and
    /// the live call refuses its content with just that number.
    #[test]
    fn spoiled_records_are_bad() {
        let mut rng = Rng::new(3);
        let mut made = [0; BADS.len()];
        let mut new_pairs = BTreeSet::new();
        for seed in 0..39 {
            let good = script(seed, 200).good;
            // Twice, so that sessions of every edition are met.
            for (i, way) in (0..2).flat_map(|_| BADS.iter().enumerate()) {
                let Some((journal, at)) = spoil(&mut rng, &good, *way) else {
                    continue;
                };
                made[i] += 1;
                let (number, bad, _) = State::restore(&journal);
                assert_eq!((number, bad), (11, at), "{way:?}");
                let (_, _, mut state) = State::restore(&journal[..RECORD * at]);
                let record = &journal[RECORD * at..RECORD * (at + 1)];
                if *way == Bad::Refused(7) {
                    let Command {
                        kind, rank, bank, ..
                    } = Command::in_record(record);
                    let edition = state.session().map(|s| s.1.edition);
                    let pair = new_pair(&state, kind, rank, bank);
                    new_pairs.extend(pair.filter(|_| edition == Some(NEWEST_EDITION)));
                }
                let mut lent = vec![0; RECORD * (at + 1)];
                let live = match record[0] {
                    1 => {
                        let [ratio, ranks, mode] = [1, 2, 3].map(|i| u64::from(record[i]));
                        // What is stored in mode 1 would be opened in mode 2.
                        let mode = if mode == 1 { 2 } else { mode };
                        state.open(&mut lent, (ratio, ranks, mode), 0, [0; 20])
                    }
                    2 => {
                        let command = Command::in_record(record);
                        state.offer(&mut lent, command).number
                    }
                    _ => state.back(&mut lent),
                };
                match way {
                    Bad::Refused(number) => assert_eq!(live, *number),
                    Bad::OtherByte0 => {}
                    _ => assert_eq!(live, 0, "{way:?}"),
                }
            }
        }
        assert!(made.iter().all(|n| *n >= 5), "{made:?}");
        assert_eq!(new_pairs.len(), 2, "{new_pairs:?}");
    }
}
