//! The console's text language over the model, the journal's memory with it.

use crate::model::{Answer, BurstAnswer, Command, State, NAMES};
use crate::sheet::Sheet;

/// Bytes of the journal in memory.
pub const JOURNAL: usize = 4_194_304;
/// The longest line that is read.
pub const LONGEST_LINE: usize = 4_096;

pub struct Console {
    pub state: State,
    pub journal: Vec<u8>,
    pub lent: usize,
    /// The journal is kept in a file: `poke` and `restore` are malformed.
    pub in_file: bool,
    /// Bytes of a line whose newline has not come yet.
    begun: Vec<u8>,
}

impl Default for Console {
    fn default() -> Console {
        Console::new()
    }
}

fn number(word: &[u8], most: u64) -> Option<u64> {
    if word.is_empty() || !word.iter().all(u8::is_ascii_digit) {
        return None;
    }
    let mut value: u128 = 0;
    for digit in word {
        value = value * 10 + u128::from(digit - b'0');
        // Stops here so that no length of digits can run over.
        if value > u128::from(most) {
            return None;
        }
    }
    Some(value as u64)
}

fn long(word: &[u8]) -> Option<u64> {
    number(word, u64::MAX)
}

fn kind(word: &[u8]) -> Option<u64> {
    for (i, name) in NAMES.iter().enumerate() {
        if word == name.as_bytes() {
            return Some(i as u64 + 1);
        }
    }
    long(word)
}

fn hexadecimal(bytes: &[u8]) -> String {
    let digit = |half: u8| char::from(b"0123456789abcdef"[usize::from(half)]);
    let mut text = String::new();
    for byte in bytes {
        text.push(digit(byte >> 4));
        text.push(digit(byte & 15));
    }
    text
}

/// A tCK and twenty times.
fn sheet(words: &[&[u8]]) -> Option<Sheet> {
    let mut numbers = Vec::new();
    for word in words {
        numbers.push(long(word)?);
    }
    let numbers: [u64; 21] = numbers.try_into().ok()?;
    let times = std::array::from_fn(|i| numbers[i + 1]);
    let tck = numbers[0];
    Some(Sheet { tck, times })
}

/// A kind, a rank, a bank and a cycle.
fn command(words: &[&[u8]]) -> Option<Command> {
    let [name, rank, bank, cycle] = words else {
        return None;
    };
    Some(Command {
        kind: kind(name)?,
        rank: long(rank)?,
        bank: long(bank)?,
        cycle: long(cycle)?,
    })
}

/// Commands one behind the other, or none at all.
pub(crate) fn commands(words: &[&[u8]]) -> Option<Vec<Command>> {
    words.chunks(4).map(command).collect()
}

pub(crate) fn with_place(word: &str, answer: Answer) -> String {
    let Answer {
        number,
        cycle,
        gap,
        loss,
    } = answer;
    format!("{word} {number} {cycle} {gap} {loss}")
}

pub(crate) fn burst_answer(answer: BurstAnswer) -> String {
    with_place(&format!("burst {}", answer.count), answer.refusal)
}

impl Console {
    pub fn new() -> Console {
        Console {
            state: State::fresh(),
            journal: vec![0; JOURNAL],
            lent: JOURNAL,
            in_file: false,
            begun: Vec::new(),
        }
    }

    /// Takes bytes of standard input, gives the bytes of standard output.
    pub fn feed(&mut self, bytes: &[u8]) -> Vec<u8> {
        let mut out = Vec::new();
        for byte in bytes {
            if *byte == b'\n' {
                let line = std::mem::take(&mut self.begun);
                self.put(&mut out, &line, true);
            } else {
                self.begun.push(*byte);
            }
        }
        out
    }

    /// The end of standard input: what stands behind the last newline was cut short, and is not played.
    pub fn finish(&mut self) -> Vec<u8> {
        let mut out = Vec::new();
        let line = std::mem::take(&mut self.begun);
        if !line.is_empty() {
            self.put(&mut out, &line, false);
        }
        out
    }

    fn put(&mut self, out: &mut Vec<u8>, line: &[u8], newline: bool) {
        if let Some(answer) = self.line(line, newline) {
            out.extend_from_slice(answer.as_bytes());
            out.push(b'\n');
        }
    }

    /// One line without its newline; `newline` says whether it had one.
    pub fn line(&mut self, line: &[u8], newline: bool) -> Option<String> {
        if line.is_empty() && !newline {
            return None;
        }
        if !newline || line.len() > LONGEST_LINE {
            return Some("?".to_string());
        }
        let text = line.strip_suffix(b"\r").unwrap_or(line);
        let mut words: Vec<&[u8]> = text.split(|b| *b == b' ' || *b == b'\t').collect();
        words.retain(|word| !word.is_empty());
        let first = words.first()?;
        if first[0] == b'#' {
            return None;
        }
        Some(self.words(&words).unwrap_or_else(|| "?".to_string()))
    }

    /// The answer to a line of one of the forms; none for any other line.
    fn words(&mut self, words: &[&[u8]]) -> Option<String> {
        let lent = &mut self.journal[..self.lent];
        match (words[0], &words[1..]) {
            (b"poke" | b"restore", _) if self.in_file => None,
            (b"open", [ratio, ranks, mode, client, given @ ..]) => {
                let numbers = (long(ratio)?, long(ranks)?, long(mode)?);
                let client = number(client, u64::from(u32::MAX))? as u32;
                let mut gaps = Vec::new();
                for gap in given {
                    gaps.push(number(gap, u64::from(u16::MAX))? as u16);
                }
                let gaps: [u16; 20] = gaps.try_into().ok()?;
                let answer = self.state.open(lent, numbers, client, gaps);
                Some(format!("open {answer}"))
            }
            (b"offer", words) => {
                let answer = self.state.offer(lent, command(words)?);
                Some(with_place("offer", answer))
            }
            // Nothing is played of a line that is malformed at its end.
            (b"burst", words) => {
                let commands = commands(words)?;
                Some(burst_answer(self.state.burst(lent, &commands)))
            }
            (b"ask", [name, rank, bank]) => {
                let answer = self.state.ask(kind(name)?, long(rank)?, long(bank)?);
                Some(with_place("ask", answer))
            }
            (b"back", []) => Some(format!("back {}", self.state.back(lent))),
            (b"status", []) => {
                let s = self.state.status();
                Some(format!(
                    "status {} {} {} {} {} {} {}",
                    s.number, s.client, s.opening, s.survivors, s.depth, s.last, s.records
                ))
            }
            (b"stretch", []) => {
                let stretch = self.state.stretch(lent);
                Some(match stretch.len() {
                    0 => "stretch 0".to_string(),
                    length => format!("stretch {length} {}", hexadecimal(stretch)),
                })
            }
            (b"lend", [bytes]) => {
                self.lent = self.first_bytes(long(bytes)?);
                Some(format!("lend {}", self.lent))
            }
            (b"restore", [bytes]) => {
                let given = self.first_bytes(long(bytes)?);
                let (answer, at, state) = State::restore(&self.journal[..given]);
                self.state = state;
                Some(format!("restore {answer} {at}"))
            }
            (b"poke", [at, byte]) => {
                let (at, byte) = (long(at)?, number(byte, 255)?);
                let place = self.journal.get_mut(usize::try_from(at).ok()?)?;
                *place = byte as u8;
                Some(format!("poke {at} {byte}"))
            }
            (b"bytes", [from, count]) => {
                let (from, count) = (long(from)?, long(count)?);
                if u128::from(from) + u128::from(count) > self.journal.len() as u128 {
                    return None;
                }
                let (from, count) = (from as usize, count as usize);
                Some(match count {
                    0 => "bytes".to_string(),
                    _ => format!("bytes {}", hexadecimal(&self.journal[from..from + count])),
                })
            }
            // It sees neither the state nor the journal, so it is the same in a file.
            (b"gaps", numbers) => Some(sheet(numbers)?.answer().to_string()),
            _ => None,
        }
    }

    /// A number of bytes, or all of the journal's if there are not so many.
    fn first_bytes(&self, bytes: u64) -> usize {
        u128::from(bytes).min(self.journal.len() as u128) as usize
    }

    /// The journal's front up to its last byte that is not 0, in whole records.
    pub fn left(&self) -> Vec<u8> {
        let used = self.journal.iter().rposition(|b| *b != 0);
        let records = used.map_or(0, |at| at / 64 + 1);
        self.journal[..64 * records].to_vec()
    }
}

#[cfg(test)]
mod tests {
    use super::*;

    fn printed(input: &[u8]) -> String {
        let mut console = Console::new();
        let mut out = console.feed(input);
        out.extend(console.finish());
        String::from_utf8(out).unwrap()
    }

    #[test]
    fn numbers() {
        assert_eq!(number(b"0", 255), Some(0));
        assert_eq!(number(b"000000000000000000000000255", 255), Some(255));
        assert_eq!(number(b"256", 255), None);
        assert_eq!(long(b"18446744073709551615"), Some(u64::MAX));
        assert_eq!(long(b"18446744073709551616"), None);
        for word in [b"".as_slice(), b"+1", b"-1", b"1.", b"0x1", b"1\r", b"\xff"] {
            assert_eq!(long(word), None);
        }
    }

    #[test]
    fn returns() {
        assert_eq!(printed(b"back\r\n"), "back 1\n");
        assert_eq!(printed(b"back\r\r\n"), "?\n");
        assert_eq!(printed(b"back\r"), "?\n");
        assert_eq!(printed(b"back \r\n"), "back 1\n");
        assert_eq!(printed(b"\r\n"), "");
        assert_eq!(printed(b"\n\nback\n\n"), "back 1\n");
    }

    /// What stands behind the last newline was cut short, whatever it says.
    #[test]
    fn a_last_line_without_newline() {
        let opening = format!("open 1 1 0 7{}", " 0".repeat(20));
        for last in ["back", "back\r", "\r", " ", "\t", "# end", "#", &opening] {
            assert_eq!(printed(last.as_bytes()), "?\n", "{last:?}");
            let behind = format!("back\n{last}");
            assert_eq!(printed(behind.as_bytes()), "back 1\n?\n", "{last:?}");
        }
        assert_eq!(printed(b""), "");
        assert_eq!(printed(b"# all\n"), "");
        let mut console = Console::new();
        assert_eq!(console.feed(opening.as_bytes()), b"");
        assert_eq!(console.finish(), b"?\n");
        assert_eq!(console.feed(b"back\n"), b"back 1\n");
    }

    #[test]
    fn long_lines() {
        let of = |length: usize, ending: &str| {
            let line = format!("back{}{ending}", " ".repeat(length - 4));
            printed(line.as_bytes())
        };
        assert_eq!(of(4096, "\n"), "back 1\n");
        assert_eq!(of(4097, "\n"), "?\n");
        assert_eq!(of(4095, "\r\n"), "back 1\n");
        assert_eq!(of(4096, "\r\n"), "?\n");
        for byte in *b"# \t" {
            let line = |length: usize| [vec![byte; length], vec![b'\n']].concat();
            assert_eq!(printed(&line(4096)), "");
            assert_eq!(printed(&line(4097)), "?\n");
        }
    }

    #[test]
    fn bytes_at_the_end() {
        assert_eq!(printed(b"bytes 4194304 0\n"), "bytes\n");
        assert_eq!(printed(b"bytes 4194305 0\n"), "?\n");
        assert_eq!(printed(b"bytes 4194303 1\n"), "bytes 00\n");
        assert_eq!(printed(b"bytes 1 18446744073709551615\n"), "?\n");
    }

    /// Twenty times, the first ones given, zeros behind.
    fn gaps_line(tck: &str, times: &[&str]) -> String {
        let mut words = vec!["gaps", tck];
        words.extend(times);
        words.resize(22, "0");
        words.join(" ")
    }

    fn one_line(line: &str) -> String {
        printed(format!("{line}\n").as_bytes())
    }

    #[test]
    fn gaps_are_told() {
        let zeros = |count| " 0".repeat(count);
        for (tck, times, told) in [
            (
                "625",
                vec!["26250", "26251"],
                format!("0 0 42 43{}", zeros(18)),
            ),
            ("000625", vec!["0026250"], format!("0 0 42{}", zeros(19))),
            (
                "65537",
                vec!["4294967295"],
                format!("0 0 65535{}", zeros(19)),
            ),
            ("0", vec!["1"], format!("13 0{}", zeros(20))),
            ("1000001", vec!["65536"], format!("13 0{}", zeros(20))),
            ("18446744073709551615", vec![], format!("13 0{}", zeros(20))),
            ("1", vec!["65535", "65536"], format!("14 2{}", zeros(20))),
            ("1000000", vec!["4294967296"], format!("14 1{}", zeros(20))),
            (
                "1",
                vec!["1", "1", "18446744073709551615"],
                format!("14 3{}", zeros(20)),
            ),
        ] {
            let line = gaps_line(tck, &times);
            assert_eq!(one_line(&line), format!("gaps {told}\n"), "{line}");
        }
    }

    /// A line that is not of the form is no refusal, whatever its tCK.
    #[test]
    fn gaps_that_are_malformed() {
        let zeros = |count| " 0".repeat(count);
        for tck in ["625", "0", "1000001"] {
            for count in (0..20).chain(21..45) {
                assert_eq!(one_line(&format!("gaps {tck}{}", zeros(count))), "?\n");
            }
            for word in [
                "18446744073709551616",
                "-1",
                "+1",
                "1.0",
                "1,000",
                "0x1",
                "RD",
                "#",
            ] {
                for at in 0..20 {
                    let line = format!("gaps {tck}{} {word}{}", zeros(at), zeros(19 - at));
                    assert_eq!(one_line(&line), "?\n", "{line}");
                }
                assert_eq!(one_line(&gaps_line(word, &[])), "?\n", "{word}");
            }
        }
        for front in ["gaps", "Gaps 625", "gap 625", "gaps625 0", "\u{b}gaps 625"] {
            let line = format!("{front}{}", zeros(20));
            assert_eq!(one_line(&line), "?\n", "{line}");
        }
        assert_eq!(printed(gaps_line("625", &[]).as_bytes()), "?\n");
    }

    #[test]
    fn gaps_with_blanks_and_zeros() {
        let told = format!("gaps 0 0{}\n", " 1".repeat(20));
        let front = format!("\tgaps  625{}", " \t 1".repeat(19));
        assert_eq!(printed(format!("{front} 625 \r\n").as_bytes()), told);
        let of = |length: usize| format!("{front} {:0>1$}", 1, length - front.len() - 1);
        assert_eq!(of(4096).len(), 4096);
        assert_eq!(one_line(&of(4096)), told);
        assert_eq!(one_line(&of(4097)), "?\n");
        assert_eq!(printed(format!("{}\r\n", of(4096)).as_bytes()), "?\n");
    }

    /// Without a session, in one, without room: nothing is asked of it and nothing changes.
    #[test]
    fn gaps_ask_nothing_of_the_session() {
        for in_file in [false, true] {
            let mut console = Console::new();
            console.in_file = in_file;
            let opening = crate::generate::opening_a();
            for line in ["status", &opening, "offer ACT 0 0 0", "back", "lend 0"] {
                console.line(line.as_bytes(), true);
                let before = (console.state.clone(), console.journal.clone());
                for (tck, number) in [("625", "0 0"), ("0", "13 0"), ("1", "14 1")] {
                    let line = gaps_line(tck, &["65536"]);
                    let answer = console.line(line.as_bytes(), true).unwrap();
                    assert!(answer.starts_with(&format!("gaps {number} ")), "{line}");
                }
                assert!(before == (console.state.clone(), console.journal.clone()));
                assert_eq!(console.lent, if line == "lend 0" { 0 } else { JOURNAL });
            }
        }
    }

    /// What is told is an opening's gaps as it stands.
    #[test]
    fn an_opening_takes_what_gaps_told() {
        let mut console = Console::new();
        let line = gaps_line("625", &["0", "1", "26250", "26251", "40959375"]);
        let answer = console.line(line.as_bytes(), true).unwrap();
        let told = answer.strip_prefix("gaps 0 0 ").unwrap();
        let opening = format!("open 4 1 0 7 {told}");
        assert_eq!(console.line(opening.as_bytes(), true).unwrap(), "open 0");
        let mut gaps = [0; 20];
        gaps[..5].copy_from_slice(&[0, 1, 42, 43, 65_535]);
        assert_eq!(console.state.session().unwrap().1.gaps, gaps);
    }

    /// A console with settings A open, and the lines' answers.
    fn answers(in_file: bool, lines: &[&str]) -> Vec<String> {
        let mut console = Console::new();
        console.in_file = in_file;
        let opening = crate::generate::opening_a();
        assert_eq!(console.line(opening.as_bytes(), true).unwrap(), "open 0");
        let answer = |line: &&str| console.line(line.as_bytes(), true).unwrap();
        lines.iter().map(answer).collect()
    }

    #[test]
    fn bursts_are_told() {
        for (line, told, status) in [
            ("burst", "0 0 0 0 0", "0 0 0 1"),
            ("burst ACT 0 0 0", "1 0 0 0 0", "1 1 0 2"),
            ("burst 1 0 0 0 2 0 0 5", "2 0 0 0 0", "2 2 5 3"),
            ("burst ACT 0 0 0 RD 0 0 4 RD 0 0 5", "1 7 5 3 2", "1 1 0 2"),
            ("burst ACT 0 0 7 RD 0 0 7", "1 6 0 0 0", "1 1 7 2"),
            ("burst ACT 0 0 0 8 0 0 5", "1 2 0 0 0", "1 1 0 2"),
            ("burst ACT 0 0 0 257 0 0 5", "1 2 0 0 0", "1 1 0 2"),
            ("burst ACT 0 0 0 RD 4294967296 0 5", "1 3 0 0 0", "1 1 0 2"),
            ("burst PREAB 0 1 0 ACT 0 0 0", "0 4 0 0 0", "0 0 0 1"),
            ("burst ACT 0 0 1099511627776", "0 5 0 0 0", "0 0 0 1"),
            (
                "burst ACT 0 0 1099511627775 RD 0 0 1099511627776",
                "1 5 0 0 0",
                "1 1 1099511627775 2",
            ),
            ("burst 18446744073709551615 0 0 0", "0 2 0 0 0", "0 0 0 1"),
            (
                "burst 0001 00 0000000000000000000000000 00",
                "1 0 0 0 0",
                "1 1 0 2",
            ),
        ] {
            for in_file in [false, true] {
                let [burst, status_told] = &answers(in_file, &[line, "status"])[..] else {
                    panic!("two answers");
                };
                assert_eq!(*burst, format!("burst {told}"), "{line}");
                assert_eq!(*status_told, format!("status 0 7 0 {status}"), "{line}");
            }
        }
    }

    /// With no session: nothing is accepted with 0, something is refused with 1.
    #[test]
    fn bursts_without_a_session() {
        assert_eq!(one_line("burst"), "burst 0 0 0 0 0\n");
        assert_eq!(one_line(" \tburst \t \r"), "burst 0 0 0 0 0\n");
        assert_eq!(one_line("burst ACT 0 0 0"), "burst 0 1 0 0 0\n");
        assert_eq!(
            one_line("burst 9 9 99 18446744073709551615"),
            "burst 0 1 0 0 0\n"
        );
        assert_eq!(printed(b"burst"), "?\n");
    }

    /// Whatever stands before the fault is not played.
    #[test]
    fn bursts_that_are_malformed() {
        let good = "ACT 0 0 0 RD 0 0 5";
        for line in [
            format!("burst {good} WR"),
            format!("burst {good} WR 0"),
            format!("burst {good} WR 0 0"),
            format!("burst 2 {good}"),
            format!("burst {good} act 0 0 90"),
            format!("burst {good} WR 0 0 18446744073709551616"),
            format!("burst {good} 18446744073709551616 0 0 90"),
            format!("burst {good} WR 0 -1 90"),
            format!("burst {good} WR RD 0 90"),
            format!("burst {good} WR 0 0 90\u{b}"),
            format!("burst ACT,0,0,0 {good}"),
            format!("Burst {good}"),
            format!("bursts {good}"),
            format!("burst{good}"),
        ] {
            for in_file in [false, true] {
                let told = answers(in_file, &[&line, "status", "bytes 64 2"]);
                assert_eq!(told, ["?", "status 0 7 0 0 0 0 1", "bytes 0000"], "{line}");
            }
        }
    }

    /// The most commands, a line that is just full, and one byte more.
    #[test]
    fn bursts_of_full_lines() {
        let most = format!("burst{}", " 1 0 0 0".repeat(511));
        assert_eq!(most.len(), 4_093);
        let full = |line: &str, length: usize| format!("{line:0<length$}");
        let told = |line: &str| answers(false, &[line]).remove(0);
        assert_eq!(told(&most), "burst 1 6 0 0 0");
        assert_eq!(told(&full(&most, 4_096)), "burst 1 6 0 0 0");
        assert_eq!(told(&full(&most, 4_097)), "?");
        assert_eq!(told(&format!("{most} 1 0 0 0")), "?");
        assert_eq!(told(&format!("{most}  \r")), "burst 1 6 0 0 0");
        assert_eq!(told(&format!("{most}   \r")), "?");
    }

    /// A burst in the middle of which the room that is lent runs out.
    #[test]
    fn bursts_without_room() {
        let list = "burst ACT 0 0 0 RD 0 0 5 RD 0 0 10";
        for in_file in [false, true] {
            let told = answers(
                in_file,
                &["lend 191", list, "burst", "status", "bytes 128 1"],
            );
            let due = [
                "lend 191",
                "burst 1 9 0 0 0",
                "burst 0 0 0 0 0",
                "status 0 7 0 1 1 0 2",
            ];
            assert_eq!(told[..4], due);
            assert_eq!(told[4], "bytes 00");
        }
    }

    /// Refused live; poked into the opening it is restored, and the session goes on with groups of two.
    #[test]
    fn a_session_in_mode_1() {
        let opening = |mode| crate::generate::opening_a().replacen("4 1 0", mode, 1);
        let (first, refused) = (opening("1 1 2"), opening("1 1 1"));
        let mut console = Console::new();
        for (line, due) in [
            (refused.as_str(), "open 10"),
            (&first, "open 0"),
            (
                "burst ACT 0 0 0 ACT 0 2 8 ACT 0 3 16 RD 0 0 40",
                "burst 4 0 0 0 0",
            ),
            ("ask RD 0 3", "ask 0 48 6 0"),
            ("ask RD 0 4", "ask 0 46 7 0"),
            (&refused, "open 10"),
            ("poke 3 1", "poke 3 1"),
            ("ask RD 0 3", "ask 0 48 6 0"),
            ("restore 320", "restore 0 0"),
            ("ask RD 0 1", "ask 0 48 6 0"),
            ("ask RD 0 2", "ask 0 46 7 0"),
            ("burst RD 0 2 46 RD 0 3 53", "burst 1 7 54 6 0"),
            ("offer RD 0 0 51", "offer 7 52 7 0"),
            ("back", "back 0"),
            ("status", "status 0 7 0 4 4 40 7"),
            (&refused, "open 10"),
            ("poke 3 3", "poke 3 3"),
            ("restore 320", "restore 11 0"),
            ("ask RD 0 2", "ask 1 0 0 0"),
        ] {
            assert_eq!(console.line(line.as_bytes(), true).unwrap(), due, "{line}");
        }
    }

    /// A live opening is of edition 2; poked to edition 0 and restored, the session goes on with no gap between these pairs.
    #[test]
    fn a_session_of_edition_0() {
        let opening = crate::generate::opening_a().replacen("4 1 0", "1 2 2", 1);
        let mut console = Console::new();
        for (line, due) in [
            (opening.as_str(), "open 0"),
            ("bytes 48 2", "bytes 0200"),
            ("offer PREPB 1 9 10", "offer 0 10 0 0"),
            ("ask REFAB 0 0", "ask 0 11 0 0"),
            ("ask REFAB 1 0", "ask 0 31 15 0"),
            ("offer REFAB 1 0 30", "offer 7 31 15 0"),
            ("burst PREAB 0 0 11 REFPB 0 4 31", "burst 1 7 32 15 0"),
            ("poke 48 0", "poke 48 0"),
            ("ask REFPB 0 4", "ask 0 32 15 0"),
            ("restore 192", "restore 0 0"),
            ("ask REFPB 0 4", "ask 0 12 0 0"),
            ("offer REFAB 1 0 12", "offer 0 12 0 0"),
            ("burst REFPB 0 4 13 REFPB 0 4 14", "burst 1 7 153 18 0"),
            ("back", "back 0"),
            ("status", "status 0 7 0 3 3 12 6"),
            ("bytes 48 2", "bytes 0000"),
            ("poke 48 1", "poke 48 1"),
            ("restore 384", "restore 11 3"),
            ("restore 192", "restore 0 0"),
            ("offer REFAB 1 0 30", "offer 7 31 15 0"),
            ("poke 48 3", "poke 48 3"),
            ("restore 192", "restore 11 0"),
            ("ask REFAB 1 0", "ask 1 0 0 0"),
            ("poke 48 0", "poke 48 0"),
            ("poke 49 1", "poke 49 1"),
            ("restore 64", "restore 11 0"),
            ("poke 49 0", "poke 49 0"),
            ("restore 384", "restore 0 0"),
            (&opening, "open 0"),
            ("bytes 432 2", "bytes 0200"),
            ("bytes 48 2", "bytes 0000"),
            ("burst PREAB 0 0 0 REFPB 0 15 20", "burst 1 7 21 15 0"),
            ("restore 384", "restore 0 0"),
            ("ask REFAB 0 0", "ask 0 32 15 0"),
            ("ask REFPB 0 15", "ask 0 13 0 0"),
        ] {
            assert_eq!(console.line(line.as_bytes(), true).unwrap(), due, "{line}");
        }
    }

    /// The last word of an offer, a question and a burst: what the named gap loses, 0 beside everything else.
    #[test]
    fn losses_are_told() {
        let second = crate::generate::opening_a().replacen("4 1 0", "2 1 2", 1);
        for in_file in [false, true] {
            let lines = [
                ("ask ACT 0 0", "ask 0 0 0 0"),
                ("offer ACT 0 0 0", "offer 0 0 0 0"),
                ("ask RD 0 0", "ask 0 5 3 2"),
                ("ask ACT 0 0", "ask 0 15 1 0"),
                ("offer RD 0 0 4", "offer 7 5 3 2"),
                ("burst RD 0 0 5 PREPB 0 0 10 RD 0 0 20", "burst 1 7 11 4 2"),
                ("ask PREPB 0 1", "ask 0 6 0 0"),
                ("offer RD 0 0 5", "offer 6 0 0 0"),
                ("burst RD 0 0 5", "burst 0 6 0 0 0"),
                ("offer PREAB 0 0 11", "offer 0 11 0 0"),
                ("burst REFPB 0 3 16", "burst 0 7 17 15 3"),
                ("offer REFAB 0 0 12", "offer 7 17 15 3"),
                ("ask REFPB 0 3", "ask 0 17 15 3"),
                ("ask 9 0 0", "ask 2 0 0 0"),
                ("ask ACT 1 0", "ask 3 0 0 0"),
                ("offer REFAB 0 1 17", "offer 4 0 0 0"),
                ("burst", "burst 0 0 0 0 0"),
                (&second, "open 0"),
                ("burst ACT 0 3 0 RD 0 3 30 PREPB 0 3 33", "burst 2 7 34 9 1"),
                ("ask PREPB 0 3", "ask 0 34 9 1"),
                ("ask RD 0 4", "ask 0 33 7 0"),
                ("lend 0", "lend 0"),
                ("offer PREPB 0 3 33", "offer 7 34 9 1"),
                ("offer PREPB 0 3 34", "offer 9 0 0 0"),
                ("burst PREPB 0 3 34", "burst 0 9 0 0 0"),
            ];
            let told = answers(in_file, &lines.map(|line| line.0));
            for ((line, due), told) in lines.iter().zip(told) {
                assert_eq!(told, *due, "{line}");
            }
        }
    }

    /// A live session refuses with 12 what the bank can't do, zeros beside it; poked to edition 1 and restored it goes on without.
    #[test]
    fn a_session_that_looks_at_banks() {
        let opening = crate::generate::opening_a().replacen("4 1 0", "1 2 0", 1);
        let mut console = Console::new();
        for (line, due) in [
            (opening.as_str(), "open 0"),
            ("offer RD 0 3 0", "offer 12 0 0 0"),
            ("ask RD 0 3", "ask 0 0 0 0"),
            ("offer ACT 0 3 0", "offer 0 0 0 0"),
            ("offer ACT 0 3 0", "offer 6 0 0 0"),
            ("offer ACT 0 3 1", "offer 12 0 0 0"),
            ("offer RD 0 3 1", "offer 7 18 3 0"),
            ("ask ACT 0 3", "ask 0 60 1 0"),
            ("burst RD 0 3 18 WR 0 4 40 WR 0 3 40", "burst 1 12 0 0 0"),
            ("burst REFAB 0 0 50", "burst 0 12 0 0 0"),
            ("burst REFAB 1 0 50", "burst 1 0 0 0 0"),
            ("offer PREAB 0 0 60", "offer 0 60 0 0"),
            ("offer WR 0 3 99", "offer 12 0 0 0"),
            ("back", "back 0"),
            ("offer WR 0 3 99", "offer 0 99 0 0"),
            ("status", "status 0 7 0 4 4 99 7"),
            ("lend 448", "lend 448"),
            ("offer RD 0 4 500", "offer 12 0 0 0"),
            ("offer RD 0 3 500", "offer 9 0 0 0"),
            ("lend 4194304", "lend 4194304"),
            ("restore 448", "restore 0 0"),
            ("offer REFPB 0 3 500", "offer 12 0 0 0"),
            ("poke 131 4", "poke 131 4"),
            ("restore 448", "restore 11 2"),
            ("poke 48 1", "poke 48 1"),
            ("restore 448", "restore 0 0"),
            ("offer REFPB 0 3 500", "offer 0 500 0 0"),
            (&opening, "open 0"),
            ("offer WR 0 3 0", "offer 12 0 0 0"),
        ] {
            assert_eq!(console.line(line.as_bytes(), true).unwrap(), due, "{line}");
        }
    }
}
