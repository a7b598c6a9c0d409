//! What the answers came to: the summary and the exit number. It reads the answers' text; their meaning is the library's.

use std::io::{self, Write};

/// What each number says, in short.
pub const REASONS: [&str; 15] = [
    "accepted",
    "no session open",
    "no command kind",
    "no such rank",
    "no such bank",
    "cycle past the last",
    "cycle not later than the last survivor's",
    "too early",
    "nothing to take back",
    "no room for a record",
    "bad settings",
    "bad record",
    "wrong bank state",
    "no such tCK",
    "a time or a gap out of range",
];

/// The gaps' names, gap 1 first.
pub const GAPS: [&str; 20] = [
    "tRC", "tRRD", "tRCD", "tRAS", "tCCD", "tCCD_L", "tCCD_S", "tRDWR", "tRTP", "tWRRD", "tWRRD_L",
    "tWRRD_S", "tWRPRE", "tRPpb", "tRPab", "tPPD", "tRFCab", "tRFCpb", "tPBR2PBR", "tFAW",
];

const TOO_EARLY: usize = 7;

#[derive(Default)]
pub struct Tally {
    pub lines: u64,
    accepted: u64,
    told: u64,
    malformed: u64,
    /// By the answer's number.
    refused: [u64; REASONS.len()],
    /// Of those that are too early, by the gap's number.
    early: [u64; GAPS.len() + 1],
}

/// The number that a word of an answer is.
fn number(word: Option<&[u8]>) -> usize {
    let digits = word.unwrap_or_default().iter();
    digits.fold(0, |n: usize, digit| {
        n.wrapping_mul(10)
            .wrapping_add(usize::from(digit.wrapping_sub(b'0')))
    })
}

/// One more at a place; behind the last there is none.
fn add(counts: &mut [u64], place: usize) {
    if let Some(count) = counts.get_mut(place) {
        *count += 1;
    }
}

impl Tally {
    /// Counts an answer. Whether it says that something was refused or malformed.
    pub fn count(&mut self, answer: &[u8]) -> bool {
        let mut words = answer.split(|byte| *byte == b' ');
        let count = match words.next().unwrap_or_default() {
            b"?" => {
                self.malformed += 1;
                return true;
            }
            b"open" | b"offer" | b"back" => &mut self.accepted,
            // How many were accepted comes first; it is one line all the same.
            b"burst" => {
                words.next();
                &mut self.accepted
            }
            b"ask" | b"status" | b"restore" | b"gaps" => &mut self.told,
            _ => {
                self.told += 1;
                return false;
            }
        };
        let refusal = number(words.next());
        if refusal == 0 {
            *count += 1;
            return false;
        }
        add(&mut self.refused, refusal);
        if refusal == TOO_EARLY {
            add(&mut self.early, number(words.nth(1)));
        }
        true
    }

    fn refusals(&self) -> u64 {
        self.refused.iter().sum()
    }

    /// 0: all was accepted or told; 1: something was refused or malformed.
    pub fn exit_number(&self) -> u8 {
        u8::from(self.refusals() + self.malformed > 0)
    }

    /// The gaps that were asked for, each with its count.
    fn by_gap(&self) -> String {
        let named = GAPS.iter().zip(&self.early[1..]).filter(|(_, n)| **n > 0);
        let parts: Vec<String> = named.map(|(gap, n)| format!("{gap} {n}")).collect();
        parts.join(", ")
    }

    /// The summary, on standard error: a line for all, and one for each number that was given.
    pub fn print(&self) {
        let (lines, refused) = (self.lines, self.refusals());
        let (accepted, told, malformed) = (self.accepted, self.told, self.malformed);
        let mut text = format!("summary: {lines} lines, {accepted} accepted, {told} told, {refused} refused, {malformed} malformed\n");
        for (number, count) in self.refused.iter().enumerate().filter(|(_, n)| **n > 0) {
            let reason = REASONS[number];
            text += &format!("summary: refused with {number}, {reason}: {count}");
            if number == TOO_EARLY {
                text += &format!(" ({})", self.by_gap());
            }
            text.push('\n');
        }
        let _ = io::stderr().write_all(text.as_bytes());
    }
}
