//! Request 2026-01: the twenty gaps from a data sheet's picoseconds.

use std::fmt;

/// The longest tCK, in picoseconds; the shortest is 1.
pub const LAST_TCK: u64 = 1_000_000;
/// The longest time, in picoseconds.
pub const LAST_TIME: u64 = 4_294_967_295;
/// The largest gap, in DRAM cycles.
pub const LAST_GAP: u64 = 65_535;

/// What a client's data sheet says, in picoseconds.
#[derive(Clone, Copy, Debug, PartialEq, Eq)]
pub struct Sheet {
    pub tck: u64,
    pub times: [u64; 20],
}

/// What is told of a sheet.
#[derive(Clone, Copy, Debug, PartialEq, Eq)]
pub struct SheetAnswer {
    pub number: u64,
    /// The lowest gap number of a 14, else 0.
    pub gap: u64,
    pub gaps: [u16; 20],
}

impl SheetAnswer {
    fn refused(number: u64, gap: u64) -> SheetAnswer {
        let gaps = [0; 20];
        SheetAnswer { number, gap, gaps }
    }
}

/// The fewest cycles that last at least a time; none if no gap lasts so long. Found by
/// halving, so that the wording alone is asked and nothing is divided or rounded.
fn fewest(tck: u64, time: u64) -> Option<u16> {
    let lasts = |cycles: u64| u128::from(cycles) * u128::from(tck) >= u128::from(time);
    if !lasts(LAST_GAP) {
        return None;
    }
    let (mut low, mut high) = (0, LAST_GAP);
    // `high` cycles last, one fewer than `low` do not.
    while low < high {
        let middle = (low + high) / 2;
        if lasts(middle) {
            high = middle;
        } else {
            low = middle + 1;
        }
    }
    Some(high as u16)
}

impl Sheet {
    /// Refusal 13 before 14; of all faults of a 14, of either kind, the lowest gap number.
    pub fn answer(&self) -> SheetAnswer {
        if self.tck == 0 || self.tck > LAST_TCK {
            return SheetAnswer::refused(13, 0);
        }
        let mut gaps = [0; 20];
        for (i, time) in self.times.iter().enumerate() {
            // A time out of range is refused even where its gap would be small.
            let told = fewest(self.tck, *time).filter(|_| *time <= LAST_TIME);
            let Some(cycles) = told else {
                return SheetAnswer::refused(14, i as u64 + 1);
            };
            gaps[i] = cycles;
        }
        let (number, gap) = (0, 0);
        SheetAnswer { number, gap, gaps }
    }
}

fn joined<T: ToString>(numbers: &[T]) -> String {
    let words: Vec<String> = numbers.iter().map(T::to_string).collect();
    words.join(" ")
}

/// The console's line.
impl fmt::Display for Sheet {
    fn fmt(&self, out: &mut fmt::Formatter) -> fmt::Result {
        write!(out, "gaps {} {}", self.tck, joined(&self.times))
    }
}

/// The console's answer.
impl fmt::Display for SheetAnswer {
    fn fmt(&self, out: &mut fmt::Formatter) -> fmt::Result {
        let gaps = joined(&self.gaps);
        write!(out, "gaps {} {} {gaps}", self.number, self.gap)
    }
}

#[cfg(test)]
mod tests {
    use super::*;
    use crate::generate::SETTINGS_A;

    /// The gap of one time at a tCK, the same at every gap number; none for a 14.
    fn gap(tck: u64, time: u64) -> Option<u16> {
        let told = |place: usize| {
            let mut times = [0; 20];
            times[place] = time;
            let told = Sheet { tck, times }.answer();
            if told.number == 14 {
                assert_eq!((told.gap, told.gaps), (place as u64 + 1, [0; 20]));
                return None;
            }
            let mut gaps = [0; 20];
            gaps[place] = told.gaps[place];
            assert_eq!((told.number, told.gap, told.gaps), (0, 0, gaps));
            Some(gaps[place])
        };
        let first = told(0);
        assert!((1..20).all(|place| told(place) == first));
        first
    }

    fn number_and_gap(tck: u64, changes: &[(usize, u64)]) -> (u64, u64) {
        let mut times = [0; 20];
        for (place, time) in changes {
            times[place - 1] = *time;
        }
        let told = Sheet { tck, times }.answer();
        assert!(told.number == 0 || told.gaps == [0; 20]);
        (told.number, told.gap)
    }

    #[test]
    fn the_documents_examples() {
        assert_eq!(gap(625, 26_250), Some(42));
        assert_eq!(gap(625, 26_251), Some(43));
        assert_eq!(gap(625, 0), Some(0));
    }

    /// 41 cycles of 625 ps are 25,625 ps, 42 are 26,250, 43 are 26,875.
    #[test]
    fn around_a_multiple() {
        for (time, cycles) in [
            (1, 1),
            (624, 1),
            (625, 1),
            (626, 2),
            (25_625, 41),
            (25_626, 42),
            (26_249, 42),
            (26_875, 43),
            (26_876, 44),
        ] {
            assert_eq!(gap(625, time), Some(cycles), "{time}");
        }
        for time in [0, 1, 2, 255, 256, 65_534, 65_535] {
            assert_eq!(gap(1, time), Some(time as u16));
        }
    }

    /// 65,535 cycles of 625 ps are 40,959,375 ps.
    #[test]
    fn the_largest_gap() {
        assert_eq!(gap(1, 65_536), None);
        assert_eq!(gap(625, 40_958_750), Some(65_534));
        assert_eq!(gap(625, 40_958_751), Some(65_535));
        assert_eq!(gap(625, 40_959_375), Some(65_535));
        assert_eq!(gap(625, 40_959_376), None);
        assert_eq!(gap(625, LAST_TIME), None);
    }

    /// 65,535 times 65,537 is 4,294,967,295, and 65,535 times 65,536 is 4,294,901,760.
    #[test]
    fn the_largest_gap_of_the_longest_time() {
        assert_eq!(gap(65_537, 4_294_967_295), Some(65_535));
        assert_eq!(gap(65_537, 4_294_967_296), None);
        assert_eq!(gap(65_536, 4_294_901_760), Some(65_535));
        assert_eq!(gap(65_536, 4_294_901_761), None);
        assert_eq!(gap(65_536, 4_294_967_295), None);
        assert_eq!(gap(65_538, 4_294_967_295), Some(65_535));
    }

    /// A million ps a cycle: 4,294 cycles are 967,295 ps short of the longest time.
    #[test]
    fn a_time_out_of_range_has_no_gap() {
        assert_eq!(gap(1_000_000, 1), Some(1));
        assert_eq!(gap(1_000_000, 1_000_000), Some(1));
        assert_eq!(gap(1_000_000, 1_000_001), Some(2));
        assert_eq!(gap(1_000_000, 4_294_000_000), Some(4_294));
        assert_eq!(gap(1_000_000, 4_294_967_295), Some(4_295));
        // 4,295 cycles would last so long.
        assert_eq!(gap(1_000_000, 4_294_967_296), None);
        assert_eq!(gap(1_000_000, 1 << 33), None);
        assert_eq!(gap(625, (1 << 32) + 26_250), None);
        assert_eq!(gap(1, 1 << 32), None);
        assert_eq!(gap(1, u64::MAX), None);
    }

    #[test]
    fn a_tck_out_of_range_comes_first() {
        for tck in [0, 1_000_001, (1 << 32) + 625, u64::MAX] {
            assert_eq!(number_and_gap(tck, &[]), (13, 0));
            assert_eq!(number_and_gap(tck, &[(1, u64::MAX)]), (13, 0));
        }
        assert_eq!(number_and_gap(1, &[]), (0, 0));
        assert_eq!(number_and_gap(1_000_000, &[]), (0, 0));
    }

    /// Out of range in one place, a gap of 65,536 in another: the lower number of both.
    #[test]
    fn the_lowest_gap_number() {
        let (out, above) = (1 << 32, 65_536);
        assert_eq!(number_and_gap(1, &[(3, out), (17, above)]), (14, 3));
        assert_eq!(number_and_gap(1, &[(3, above), (17, out)]), (14, 3));
        assert_eq!(number_and_gap(1, &[(20, above), (19, out)]), (14, 19));
        assert_eq!(number_and_gap(1, &[(20, out), (19, above)]), (14, 19));
        for time in [out, above] {
            let all: Vec<(usize, u64)> = (1..=20).map(|place| (place, time)).collect();
            for first in 0..20 {
                let gap = first as u64 + 1;
                assert_eq!(number_and_gap(1, &all[first..]), (14, gap));
            }
        }
    }

    /// Settings A from their times at 625 ps; tRAS is the document's 26,250.
    #[test]
    fn settings_a() {
        let times = [
            37_500, 5_000, 11_250, 26_250, 5_000, 5_000, 3_750, 12_500, 4_375, 18_750, 18_750,
            15_625, 25_000, 11_250, 13_125, 1_250, 175_000, 87_500, 56_250, 20_000,
        ];
        let sheet = Sheet { tck: 625, times };
        let told = sheet.answer();
        assert_eq!((told.number, told.gap, told.gaps), (0, 0, SETTINGS_A));
        let shorter = Sheet {
            tck: 625,
            times: times.map(|time| time - 624),
        };
        assert_eq!(shorter.answer(), told);
        let longer = Sheet {
            tck: 625,
            times: times.map(|time| time + 1),
        };
        assert_eq!(longer.answer().gaps, SETTINGS_A.map(|gap| gap + 1));
    }
}
