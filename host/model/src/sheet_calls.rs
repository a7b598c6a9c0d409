//! Data sheets at the edges of request 2026-01, for the console's lines and for single calls, and
//! what holds another program's calls against the model.

use crate::generate::{Rng, TOO_LARGE};
use crate::sheet::{Sheet, SheetAnswer, LAST_GAP, LAST_TCK, LAST_TIME};

/// Both ends of the range, cycles at which 65,535 of them just fit 32 bits or just do not, and those that
/// look right once cut down to 16, 20 or 32 bits.
pub const TCKS: [u64; 33] = [
    0,
    1,
    2,
    3,
    7,
    255,
    256,
    624,
    625,
    626,
    938,
    1_250,
    65_534,
    65_535,
    65_536,
    65_537,
    65_538,
    999_999,
    1_000_000,
    1_000_001,
    1_000_002,
    (1 << 20) - 1,
    1 << 20,
    (1 << 20) + 625,
    (1 << 32) - 1,
    1 << 32,
    (1 << 32) + 1,
    (1 << 32) + 625,
    1 << 63,
    (1 << 63) + 625,
    u64::MAX - 624,
    u64::MAX - 1,
    u64::MAX,
];

/// Times at edges of their own, whatever the tCK is.
const TIMES: [u64; 24] = [
    0,
    1,
    2,
    26_249,
    26_250,
    26_251,
    65_534,
    65_535,
    65_536,
    65_537,
    (1 << 31) - 1,
    1 << 31,
    (1 << 32) - 2,
    (1 << 32) - 1,
    1 << 32,
    (1 << 32) + 1,
    1 << 33,
    1 << 40,
    1 << 48,
    (1 << 63) - 1,
    1 << 63,
    (1 << 63) + 1,
    u64::MAX - 1,
    u64::MAX,
];

/// Numbers of cycles at which a gap is named, or no longer is, or is another one once cut down.
const CYCLES: [u64; 15] = [
    1, 2, 3, 42, 255, 256, 257, 32_767, 32_768, 65_534, 65_535, 65_536, 65_537, 65_578, 131_072,
];

fn around(middle: u64) -> [u64; 3] {
    [middle.wrapping_sub(1), middle, middle.wrapping_add(1)]
}

/// The times at the edges of a tCK. Out of the range of tCK they wrap: any time is as good there.
pub fn edge_times(tck: u64) -> Vec<u64> {
    let mut times = TIMES.to_vec();
    for cycles in CYCLES {
        let whole = cycles.wrapping_mul(tck);
        times.extend(around(whole));
        // Cut down to 32 bits, or to 63, it is that time.
        times.extend([whole | 1 << 32, whole | 1 << 63]);
    }
    // From here on the time and a cycle do not fit 32, or 64, bits together.
    for end in [1 << 32, 0_u64] {
        let begin = end.wrapping_sub(tck);
        times.extend(around(begin));
        times.extend(around(begin.wrapping_add(2)));
    }
    times.sort_unstable();
    times.dedup();
    times
}

/// A tCK that is in range, for those that are not.
fn within(tck: u64) -> u64 {
    tck.clamp(1, LAST_TCK)
}

/// A time that a tCK has a gap for, mostly around a multiple.
fn good_time(rng: &mut Rng, tck: u64) -> u64 {
    let tck = within(tck);
    let most = (LAST_GAP * tck).min(LAST_TIME);
    let time = match rng.below(8) {
        0 => 0,
        1 => most - rng.below(2),
        2 => rng.between(0, most),
        3 => rng.pick(&TIMES),
        4 => tck * rng.pick(&CYCLES) + rng.below(2),
        5 => tck * rng.below(100) + rng.below(2),
        _ => {
            let whole = tck * rng.between(1, most / tck);
            rng.pick(&[whole - 1, whole, whole + 1])
        }
    };
    time.min(most)
}

/// In range, and its gap is above 65,535; none if the tCK has no such time.
fn long_time(rng: &mut Rng, tck: u64) -> Option<u64> {
    let least = LAST_GAP * within(tck) + 1;
    if least > LAST_TIME {
        return None;
    }
    let any = rng.between(least, LAST_TIME);
    let next = LAST_TIME.min(least + within(tck));
    Some(rng.pick(&[least, least, next, LAST_TIME, any]))
}

/// Out of range: by one, by bits that are soon lost, or so that its gap would be small in truth.
fn time_out_of_range(rng: &mut Rng, tck: u64) -> u64 {
    let tck = within(tck);
    let good = good_time(rng, tck);
    let high = 1 << rng.between(32, 63);
    let small = tck * rng.between(LAST_TIME / tck + 1, LAST_TIME / tck + 9);
    let any = LAST_TIME + 1 + rng.below(u64::MAX - LAST_TIME);
    // From here on the time and a cycle do not fit 64 bits together.
    let wide = u64::MAX - tck + 1;
    let edge = rng.pick(&[LAST_TIME + 1, LAST_TIME + 2, wide, u64::MAX]);
    rng.pick(&[LAST_TIME + 1, edge, high, high | good, small, any])
}

fn bad_time(rng: &mut Rng, tck: u64) -> u64 {
    let long = long_time(rng, tck);
    let out = time_out_of_range(rng, tck);
    match long {
        Some(long) if rng.chance(50) => long,
        _ => out,
    }
}

/// The places of the faults: none, one, several or all. Any may be the lowest.
fn faults(rng: &mut Rng) -> [bool; 20] {
    let first = rng.below(20) as usize;
    let more = match rng.below(10) {
        0..=3 => return [false; 20],
        4..=6 => 0,
        7 | 8 => 30,
        _ => return [true; 20],
    };
    std::array::from_fn(|place| place == first || (place > first && rng.chance(more)))
}

fn any_tck(rng: &mut Rng) -> u64 {
    match rng.below(20) {
        0..=5 => rng.pick(&TCKS),
        6 => rng.pick(&[0, LAST_TCK + 1]),
        7..=12 => rng.pick(&[1, 625, 65_536, 65_537, LAST_TCK]),
        13..=15 => rng.between(1, 2_000),
        _ => rng.between(1, LAST_TCK),
    }
}

/// A sheet at the edges: with a gap for each time, or with faults.
pub fn any_sheet(rng: &mut Rng) -> Sheet {
    let tck = any_tck(rng);
    if rng.chance(8) {
        let edges = edge_times(tck);
        let times = [(); 20].map(|()| rng.pick(&edges));
        return Sheet { tck, times };
    }
    let times = faults(rng).map(|is_bad| match is_bad {
        true => bad_time(rng, tck),
        false => good_time(rng, tck),
    });
    Sheet { tck, times }
}

/// A sheet that has just these gaps.
pub fn sheet_of(rng: &mut Rng, gaps: [u16; 20]) -> Sheet {
    // At 65,537 ps the largest gap is as long as the longest time.
    let any = rng.between(1, 65_537);
    let tck = rng.pick(&[1, 2, 625, 625, 938, 1_250, 65_536, 65_537, any]);
    let times = gaps.map(|gap| {
        let whole = tck * u64::from(gap);
        let shorter = rng.below(tck);
        whole.saturating_sub(rng.pick(&[0, 0, tck - 1, shorter]))
    });
    Sheet { tck, times }
}

/// Words that are no number of 64 bits.
pub const NO_NUMBERS: [&str; 14] = [
    "-1",
    "+1",
    "1.0",
    "1e3",
    "0x271",
    "26,250",
    "26_250",
    "625ps",
    "ns",
    "ACT",
    "tRC",
    "x",
    "#",
    "26250\u{b}",
];

/// A line that is nearly of the form. Often its tCK, or a time, would be refused if it were.
pub fn malformed_gaps_line(rng: &mut Rng) -> String {
    let mut sheet = any_sheet(rng);
    if rng.chance(30) {
        sheet.tck = rng.pick(&[0, LAST_TCK + 1, u64::MAX]);
    }
    let line = sheet.to_string();
    let mut words: Vec<&str> = line.split(' ').collect();
    let some = rng.between(1, 21) as usize;
    match rng.below(10) {
        0 => words.truncate(21),
        1 => words.push(rng.pick(&["0", "1", "26250"])),
        2 => words.truncate(some),
        3 => words.extend(vec!["625"; some]),
        4 => words.extend_from_within(..),
        5 | 6 => words[some] = rng.pick(&TOO_LARGE),
        7 | 8 => words[some] = rng.pick(&NO_NUMBERS),
        _ => {
            words[0] = rng.pick(&[
                "gap", "Gaps", "GAPS", "gapss", "gaps:", "625", "open", "ask",
            ])
        }
    }
    words.join(" ")
}

/// Every edge of every tCK at every gap number. The others' gaps are all different, so that none can stand for another.
fn edge_sheets() -> impl Iterator<Item = Sheet> {
    let edges = |tck| edge_times(tck).into_iter().map(move |time| (tck, time));
    let places = |(tck, time)| (0..20).map(move |place| (tck, time, place));
    let at = |(tck, time, place): (u64, u64, usize)| {
        let mut times = std::array::from_fn(|i| (i as u64 + 1).wrapping_mul(tck));
        times[place] = time;
        Sheet { tck, times }
    };
    TCKS.into_iter().flat_map(edges).flat_map(places).map(at)
}

/// For tests of single calls in volume: asks another program's call for the gaps of every edge at every
/// gap number, then of `count` sheets from the seed, and holds each answer against the model. Gives how
/// many were asked, or the first that differs, as the console's lines.
pub fn compare_gaps_calls(
    seed: u64,
    count: u64,
    mut call: impl FnMut(u64, [u64; 20]) -> SheetAnswer,
) -> Result<u64, String> {
    let mut rng = Rng::new(seed);
    let drawn = (0..count).map(|_| any_sheet(&mut rng));
    let mut asked = 0;
    for sheet in edge_sheets().chain(drawn) {
        asked += 1;
        let (expected, got) = (sheet.answer(), call(sheet.tck, sheet.times));
        if got != expected {
            return Err(format!(
                "seed {seed}, call {asked}: {sheet}\n  expected {expected}\n  got      {got}"
            ));
        }
    }
    Ok(asked)
}

/// Programs that are wrong in one way, so that calls and scripts can be shown to tell.
#[cfg(test)]
pub mod wrong {
    use super::*;

    /// Of a tCK and a time.
    type Gap = fn(u64, u64) -> u64;
    /// Of the numbers of the times out of range, and of the gaps that are too large.
    type Named = fn(&[u64], &[u64]) -> u64;

    /// The limits, the gap of a time, and the number that a 14 names, each to be changed alone.
    #[derive(Clone, Copy)]
    pub struct Program {
        tcks: [u64; 2],
        last_time: u64,
        last_gap: u64,
        gap: Gap,
        named: Named,
    }

    fn up(tck: u64, time: u64) -> u64 {
        time.div_ceil(tck)
    }

    fn lowest(out: &[u64], above: &[u64]) -> u64 {
        let first = |of: &[u64]| of.first().copied().unwrap_or(u64::MAX);
        first(out).min(first(above))
    }

    pub const RIGHT: Program = Program {
        tcks: [1, LAST_TCK],
        last_time: LAST_TIME,
        last_gap: LAST_GAP,
        gap: up,
        named: lowest,
    };

    impl Program {
        pub fn answer(&self, tck: u64, times: [u64; 20]) -> SheetAnswer {
            let refused = |number, gap| SheetAnswer {
                number,
                gap,
                gaps: [0; 20],
            };
            if tck < self.tcks[0] || tck > self.tcks[1] {
                return refused(13, 0);
            }
            let gaps = times.map(|time| (self.gap)(tck.max(1), time));
            let mut faults = [Vec::new(), Vec::new()];
            for (number, (time, gap)) in (1..).zip(times.iter().zip(gaps)) {
                if *time > self.last_time {
                    faults[0].push(number);
                } else if gap > self.last_gap {
                    faults[1].push(number);
                }
            }
            match (self.named)(&faults[0], &faults[1]) {
                u64::MAX => SheetAnswer {
                    number: 0,
                    gap: 0,
                    gaps: gaps.map(|gap| gap as u16),
                },
                number => refused(14, number),
            }
        }
    }

    fn one_after_the_other(first: &[u64], second: &[u64]) -> u64 {
        *first.first().or(second.first()).unwrap_or(&u64::MAX)
    }

    fn highest(out: &[u64], above: &[u64]) -> u64 {
        *out.last().max(above.last()).unwrap_or(&u64::MAX)
    }

    const GAPS: [(&str, Gap); 8] = [
        ("rounds down", |tck, time| time / tck),
        ("rounds to nearest", |tck, time| {
            time.saturating_add(tck / 2) / tck
        }),
        ("one more at a multiple", |tck, time| {
            (time / tck).saturating_add(1)
        }),
        ("0 becomes 1", |tck, time| up(tck, time).max(1)),
        ("a short time is none", |tck, time| {
            if time < tck {
                0
            } else {
                up(tck, time)
            }
        }),
        ("sums of 32 bits", |tck, time| {
            u64::from((time as u32).wrapping_add(tck as u32 - 1)) / tck
        }),
        ("gaps of 16 bits", |tck, time| up(tck, time) & 65_535),
        ("floats of 32 bits", |tck, time| {
            (time as f32 / tck as f32).ceil() as u64
        }),
    ];

    /// First and last tCK, last time, last gap.
    const LIMITS: [(&str, [u64; 4]); 10] = [
        ("tCK 0 taken", [0, LAST_TCK, LAST_TIME, LAST_GAP]),
        ("tCK 1 refused", [2, LAST_TCK, LAST_TIME, LAST_GAP]),
        (
            "the last tCK refused",
            [1, LAST_TCK - 1, LAST_TIME, LAST_GAP],
        ),
        ("one tCK more taken", [1, LAST_TCK + 1, LAST_TIME, LAST_GAP]),
        ("any tCK taken", [1, u64::MAX, LAST_TIME, LAST_GAP]),
        (
            "the last time refused",
            [1, LAST_TCK, LAST_TIME - 1, LAST_GAP],
        ),
        (
            "one time more taken",
            [1, LAST_TCK, LAST_TIME + 1, LAST_GAP],
        ),
        ("any time taken", [1, LAST_TCK, u64::MAX, LAST_GAP]),
        (
            "the last gap refused",
            [1, LAST_TCK, LAST_TIME, LAST_GAP - 1],
        ),
        ("one gap more taken", [1, LAST_TCK, LAST_TIME, LAST_GAP + 1]),
    ];

    const NAMED: [(&str, Named); 4] = [
        ("times first, then gaps", one_after_the_other),
        ("gaps first, then times", |out, above| {
            one_after_the_other(above, out)
        }),
        ("the highest number named", highest),
        ("gap 20 not looked at", |out, above| {
            match lowest(out, above) {
                20 => u64::MAX,
                number => number,
            }
        }),
    ];

    type Call = fn(u64, [u64; 20]) -> SheetAnswer;

    const CALLS: [(&str, Call); 3] = [
        ("14 before 13", |tck, times| {
            let first = RIGHT.answer(within(tck), times);
            match first.number {
                14 => first,
                _ => RIGHT.answer(tck, times),
            }
        }),
        ("gaps left beside 14", |tck, times| {
            let mut told = RIGHT.answer(tck, times);
            for place in 1..told.gap as usize {
                told.gaps[place - 1] = up(tck, times[place - 1]) as u16;
            }
            told
        }),
        ("numbers from 0", |tck, times| {
            let mut told = RIGHT.answer(tck, times);
            told.gap = told.gap.saturating_sub(1);
            told
        }),
    ];

    /// One that can be asked.
    pub type Asked = Box<dyn Fn(u64, [u64; 20]) -> SheetAnswer>;

    /// Each is right but for what its name says.
    pub fn programs() -> Vec<(&'static str, Asked)> {
        let mut programs: Vec<(&str, Asked)> = Vec::new();
        let mut add = |name, program: Program| {
            programs.push((name, Box::new(move |tck, times| program.answer(tck, times))));
        };
        for (name, gap) in GAPS {
            add(name, Program { gap, ..RIGHT });
        }
        for (name, [first, last, last_time, last_gap]) in LIMITS {
            let tcks = [first, last];
            let program = Program {
                tcks,
                last_time,
                last_gap,
                ..RIGHT
            };
            add(name, program);
        }
        for (name, named) in NAMED {
            add(name, Program { named, ..RIGHT });
        }
        for (name, call) in CALLS {
            programs.push((name, Box::new(call)));
        }
        programs
    }
}

#[cfg(test)]
mod tests {
    use super::*;
    use crate::console::Console;
    use crate::generate::{padded, SETTINGS_A};

    #[test]
    fn a_right_program_is_found_right() {
        let right = |tck, times| wrong::RIGHT.answer(tck, times);
        let asked = compare_gaps_calls(1, 100_000, right);
        assert!(asked.as_ref().is_ok_and(|n| *n > 150_000), "{asked:?}");
    }

    /// By every edge and sheets behind, and by drawn sheets alone.
    #[test]
    fn wrong_programs_are_found_wrong() {
        for (name, call) in wrong::programs() {
            let report = compare_gaps_calls(1, 5_000, &call).expect_err(name);
            assert!(report.contains("expected gaps ") && report.contains("got      gaps "));
            let mut rng = Rng::new(2);
            let mut sheets = (0..5_000).map(|_| any_sheet(&mut rng));
            assert!(sheets.any(|s| call(s.tck, s.times) != s.answer()), "{name}");
        }
    }

    /// The numbers of the times out of range, and of the gaps that are too large.
    fn faults_of(sheet: &Sheet) -> [Vec<u64>; 2] {
        let mut faults = [Vec::new(), Vec::new()];
        for (number, time) in (1..).zip(sheet.times) {
            if time > LAST_TIME {
                faults[0].push(number);
            } else if u128::from(time) > u128::from(LAST_GAP) * u128::from(sheet.tck) {
                faults[1].push(number);
            }
        }
        faults
    }

    /// Sheets that reach little could not show a fault.
    #[test]
    fn drawn_sheets_reach_every_answer() {
        let mut rng = Rng::new(7);
        let mut numbers = [0; 15];
        // Of each kind alone at each number; a gap that would be small; one, several and all faults.
        let (mut alone, mut small, mut counts) = ([[0; 21]; 2], 0, [0; 21]);
        for _ in 0..20_000 {
            let sheet = any_sheet(&mut rng);
            let told = sheet.answer();
            numbers[told.number as usize] += 1;
            if told.number == 13 {
                continue;
            }
            let [out, above] = faults_of(&sheet);
            counts[out.len() + above.len()] += 1;
            let kind = usize::from(out.first() != Some(&told.gap));
            alone[kind][told.gap as usize] += 1;
            let short = |number: &u64| sheet.times[*number as usize - 1] <= LAST_GAP * sheet.tck;
            small += usize::from(out.first().is_some_and(short));
        }
        let told = [numbers[0], numbers[13], numbers[14], small];
        assert!(told.iter().all(|n| *n >= 500), "{told:?}");
        assert!(
            alone.iter().all(|of| of[1..].iter().all(|n| *n >= 20)),
            "{alone:?}"
        );
        assert!(
            counts
                .iter()
                .enumerate()
                .all(|(n, times)| n > 6 || *times >= 100),
            "{counts:?}"
        );
        assert!(counts[20] >= 500, "{counts:?}");
    }

    #[test]
    fn a_sheet_of_gaps_has_these() {
        let mut rng = Rng::new(3);
        for round in 0..2_000 {
            let gaps = match round % 4 {
                0 => SETTINGS_A,
                1 => [65_535; 20],
                2 => [0; 20],
                _ => [(); 20].map(|()| rng.draw() as u16),
            };
            let told = sheet_of(&mut rng, gaps).answer();
            assert_eq!((told.number, told.gap, told.gaps), (0, 0, gaps));
        }
    }

    #[test]
    fn lines_that_are_malformed() {
        let mut rng = Rng::new(4);
        let mut console = Console::new();
        for _ in 0..5_000 {
            let line = malformed_gaps_line(&mut rng);
            let answer = console.line(line.as_bytes(), true);
            assert_eq!(answer.as_deref(), Some("?"), "{line}");
        }
    }

    #[test]
    fn lines_of_a_length() {
        let mut rng = Rng::new(5);
        let mut console = Console::new();
        for _ in 0..100 {
            let sheet = any_sheet(&mut rng);
            let line = padded(&sheet.to_string(), 4_096);
            assert_eq!(line.len(), 4_096);
            let answer = console.line(line.as_bytes(), true);
            assert_eq!(answer, Some(sheet.answer().to_string()));
            assert_eq!(padded(&sheet.to_string(), 0), sheet.to_string());
        }
    }
}
