//! Bursts among the other lines of a script: request 2026-02 at its edges.

use super::{padded, Mood, Player, JOURNAL, LIVE_MODES};
use crate::burst_calls::{
    activates_for, any_number, any_place, burst_line, fullest_line, list_for, malformed_burst_line,
    refreshes_for, Refusal,
};
use crate::console::LONGEST_LINE;
use crate::model::Command;

/// From so many records on a script has no long bursts more: the model reads all of them anew with each call.
const MANY_RECORDS: u64 = 900;

impl Player {
    /// Before some acts.
    pub(super) fn bursts_now_and_then(&mut self) {
        let percent = match self.mood {
            // Its acts are long.
            Mood::Deep => 60,
            Mood::Room | Mood::Wild | Mood::Mixed | Mood::FourActivates => 10,
            Mood::Malformed => 8,
            _ => 6,
        };
        if self.forms.bursts && self.rng.chance(percent) {
            self.burst_act();
        }
    }

    fn burst_act(&mut self) {
        if self.mood == Mood::FourActivates && self.rng.chance(40) {
            return self.window_burst();
        }
        match self.rng.below(42) {
            0..=11 => self.refused_burst(),
            12..=14 => self.empty_burst(),
            15 => self.burst_of_one(),
            16..=18 => self.long_burst(),
            19 => self.burst_to_the_bottom(),
            20..=22 => self.burst_without_room(),
            23 => self.burst_behind_a_back(),
            24 | 25 => self.burst_and_restore(),
            26 | 27 => self.full_line(),
            28 | 29 => self.fullest_burst(),
            30 | 31 => self.window_burst(),
            32..=34 => self.refresh_burst(),
            35..=37 => self.burst_at_a_loss(),
            38 | 39 => self.bank_burst(),
            _ => self.malformed_burst(),
        }
    }

    fn list(&mut self, length: usize, refusal: Option<Refusal>) -> Vec<Command> {
        let given = (&self.console.state, &self.habits);
        list_for(&mut self.rng, given, length, refusal, u64::MAX)
    }

    fn legal_list(&mut self, length: usize) -> Vec<Command> {
        self.list(length, None)
    }

    /// A few, or as many as can be taken back and more.
    fn some_length(&mut self) -> usize {
        let long = self.rng.between(60, 140);
        let few = self.rng.between(2, 12);
        let length = match self.count() < MANY_RECORDS {
            true => self.rng.pick(&[few, few, 64, 65, 66, long]),
            false => few,
        };
        length as usize
    }

    /// Sends it, and mostly looks at what it left.
    pub(super) fn burst(&mut self, list: &[Command]) {
        let line = burst_line(&mut self.rng, list);
        // Odd blanks would make a long line too long.
        match line.len() < 1_000 {
            true => self.say(&line),
            false => self.send(format!("{line}\n").into_bytes()),
        };
        self.look_behind();
    }

    fn look_behind(&mut self) {
        let end = 64 * self.count();
        match self.rng.below(10) {
            0..=3 => {
                self.say("status");
            }
            4 | 5 => {
                // The last records, and what stands behind them.
                self.say(&format!("bytes {} 256", end.saturating_sub(192)));
            }
            6 => self.ask(),
            7 => self.sweep(),
            8 => self.back(),
            _ => {}
        }
    }

    /// A refusal with each number, at the first place, the last, and between. Too early is said of twenty gaps, so it comes more often.
    fn refused_burst(&mut self) {
        let number = match self.rng.chance(25) {
            true => 7,
            false => any_number(&mut self.rng, &self.console.state),
        };
        let length = match self.rng.below(10) {
            // Room for the window of four activates before it.
            0..=3 => self.rng.between(6, 20) as usize,
            4..=7 => self.rng.between(1, 5) as usize,
            _ => self.some_length(),
        };
        let place = any_place(&mut self.rng, length);
        let list = self.list(length, Some((place, number)));
        self.burst(&list);
    }

    /// Activates alone: the window of four is crossed within the burst, and now and then asks for more.
    fn window_burst(&mut self) {
        let length = self.rng.between(5, 14) as usize;
        let early = self.rng.between(4, 16) as usize;
        let rank = self.rng.below(self.ranks());
        let list = activates_for(&mut self.rng, &self.console.state, rank, (length, early));
        self.burst(&list);
    }

    /// Precharges, each with a refresh of the other kind behind it.
    pub(super) fn refresh_burst(&mut self) {
        let length = self.rng.between(2, 12) as usize;
        let rank = self.rng.below(self.ranks());
        let list = refreshes_for(&mut self.rng, &self.console.state, rank, length);
        self.burst(&list);
    }

    fn burst_of_one(&mut self) {
        let list = self.legal_list(1);
        self.burst(&list);
    }

    fn empty_burst(&mut self) {
        self.say("burst");
        self.look_behind();
    }

    fn long_burst(&mut self) {
        let length = self.some_length();
        let list = self.legal_list(length);
        self.burst(&list);
    }

    /// As many take-backs behind a burst as there can be, and one more; or nearly.
    fn burst_to_the_bottom(&mut self) {
        // It takes many lines.
        let seldom = !matches!(self.mood, Mood::Deep | Mood::SecondThoughts | Mood::Mixed);
        if seldom && self.rng.chance(50) {
            return self.long_burst();
        }
        let length = self.rng.pick(&[5, 62, 63, 64, 65, 66, 80]);
        let list = self.legal_list(length);
        self.burst(&list);
        if self.rng.chance(30) {
            self.restore_at(64 * self.count());
        }
        self.back_to_bottom();
        let again = self.rng.between(1, 6) as usize;
        let list = self.legal_list(again);
        self.burst(&list);
    }

    /// Room that runs out in the middle: what came before stays.
    fn burst_without_room(&mut self) {
        let length = self.rng.between(1, 20);
        let any = self.rng.below(length + 1);
        let more = self.rng.pick(&[any, any, any, length - 1]);
        let loose = self.rng.pick(&[0, 0, 1, 63]);
        let bytes = 64 * (self.count() + more) + loose;
        self.say(&format!("lend {bytes}"));
        // Often a refusal just where the room ends, or one before or behind it.
        let number = any_number(&mut self.rng, &self.console.state);
        let near = self.rng.pick(&[more, more + 1, more.saturating_sub(1)]) as usize;
        let refusal = self.rng.chance(40).then_some((near, number));
        let list = self.list(length as usize, refusal);
        self.burst(&list);
        if self.rng.chance(40) {
            self.empty_burst();
        }
        if self.rng.chance(40) {
            let list = self.legal_list(2);
            self.burst(&list);
        }
        self.say(&format!("lend {JOURNAL}"));
        if self.rng.chance(50) {
            let list = self.legal_list(3);
            self.burst(&list);
        }
    }

    fn burst_behind_a_back(&mut self) {
        for _ in 0..self.rng.between(1, 6) {
            self.back();
        }
        self.long_burst();
    }

    /// A restore of all that a burst wrote, or of a part of it.
    fn burst_and_restore(&mut self) {
        let before = self.count();
        self.long_burst();
        let end = self.count();
        let cut = self.rng.between(before.min(end), end);
        let records = self.rng.pick(&[end, end, cut]);
        let loose = self.rng.pick(&[0, 0, 1, 63]);
        self.restore_at(64 * records + loose);
        self.say("status");
        match self.rng.below(3) {
            0 => self.back(),
            1 => self.long_burst(),
            _ => self.sweep(),
        }
        if records < end && self.rng.chance(50) {
            self.restore_at(64 * end);
        }
    }

    /// A line that is just full, or has one byte too many.
    fn full_line(&mut self) {
        let list = self.legal_list(3);
        let line = match self.rng.chance(50) {
            true => burst_line(&mut self.rng, &list),
            false => fullest_line(&mut self.rng),
        };
        let length = self.rng.pick(&[LONGEST_LINE, LONGEST_LINE + 1]);
        let returned = self.rng.chance(30);
        // The return counts towards the length.
        let line = padded(&line, length - usize::from(returned));
        let ending = if returned { "\r\n" } else { "\n" };
        self.send(format!("{line}{ending}").into_bytes());
        self.say("status");
    }

    /// The most commands that a line can say, and the most that can be accepted of one: a new client without gaps.
    fn fullest_burst(&mut self) {
        let line = fullest_line(&mut self.rng);
        self.send(format!("{line}\n").into_bytes());
        if self.count() > MANY_RECORDS {
            return;
        }
        let mode = self.rng.pick(&LIVE_MODES);
        let opened = self.say(&format!("open 1 1 {mode} 7{}", " 0".repeat(20)));
        self.begin(opened);
        let mut line = "burst".to_string();
        for cycle in 0.. {
            let more = format!(" {} 0 0 {cycle}", 1 + cycle % 7);
            if line.len() + more.len() > LONGEST_LINE {
                break;
            }
            line += &more;
        }
        self.send(format!("{line}\n").into_bytes());
        self.say("status");
        if self.rng.chance(50) {
            self.open();
        }
    }

    /// What stands before the fault could be accepted, and is not.
    pub(super) fn malformed_burst(&mut self) {
        let length = self.rng.pick(&[0, 1, 2, 5, 12]);
        let list = self.legal_list(length);
        let line = malformed_burst_line(&mut self.rng, &list);
        self.say(&line);
        if self.rng.chance(60) {
            self.say("status");
        }
    }

    /// A line of good form and not too long.
    pub(super) fn some_burst_line(&mut self) -> String {
        let length = self.rng.below(9) as usize;
        let list = self.legal_list(length);
        burst_line(&mut self.rng, &list)
    }

    /// Before any opening: nothing, and lists that are refused for that alone.
    pub(super) fn bursts_without_a_session(&mut self) {
        if !self.forms.bursts {
            return;
        }
        if self.rng.chance(50) {
            self.empty_burst();
        }
        if self.rng.chance(50) {
            self.refused_burst();
        }
        if self.rng.chance(10) {
            self.burst_of_one();
        }
    }
}

#[cfg(test)]
mod tests {
    use super::super::*;
    use crate::burst_calls::wrong;
    use crate::console::{burst_answer, commands};
    use std::collections::BTreeMap;

    const WITH_BURSTS: Forms = Forms {
        gaps: true,
        bursts: true,
    };
    const SCRIPTS: u64 = 104;

    /// The words of a line that is sent.
    fn words(line: &Line) -> Vec<&[u8]> {
        let blank = |b: &u8| b" \t\r\n".contains(b);
        let words = line.sent.split(blank).filter(|w| !w.is_empty());
        words.collect()
    }

    fn is_burst(line: &Line) -> bool {
        words(line).first() == Some(&b"burst".as_slice())
    }

    /// The numbers of an answer to a burst.
    fn told(line: &Line) -> Option<[u64; 5]> {
        let text = String::from_utf8_lossy(line.answer.as_deref()?).into_owned();
        let numbers = text.strip_prefix("burst ")?.split(' ');
        let numbers: Vec<u64> = numbers.map(|n| n.parse().unwrap()).collect();
        numbers.try_into().ok()
    }

    /// Where in its list a refused command stands.
    fn place(count: usize, length: usize) -> &'static str {
        match (count, length - count) {
            (0, 1) => "alone",
            (0, _) => "first",
            (_, 1) => "last",
            _ => "between",
        }
    }

    /// What a list came to that was answered, the state before it given.
    fn of_a_list(state: &State, list: &[Command], told: [u64; 5]) -> Vec<String> {
        let [count, number, _, gap, _] = told;
        let (accepted, rest) = list.split_at(count as usize);
        let is_open = state.session().is_some();
        let mut seen = vec![format!("{} in a session: {is_open}", list.len().min(2))];
        if number != 0 {
            seen.push(format!("{number} {}", place(accepted.len(), list.len())));
        }
        let in_rank = |rank| accepted.iter().filter(move |c| c.rank == rank);
        let activates = |rank| in_rank(rank).filter(|c| c.kind == ACT).count();
        let is_window = rest.first().is_some_and(|c| activates(c.rank) > 3) && gap == 20;
        let widest = list.iter().map(|c| c.kind.max(c.rank).max(c.bank)).max();
        let is_behind = state.records.last() == Some(&Record::TakeBack);
        for (is_so, what) in [
            (count > 64, "past the depth"),
            (count > 400, "past the depth by far"),
            (activates(0).max(activates(1)) > 4, "past the window"),
            (is_window, "window met within"),
            (list.len() == 511, "the most commands"),
            (widest > Some(255), "above 8 bits"),
            (widest > Some(1 << 32), "above 32 bits"),
            (is_behind && count > 0, "behind a take-back"),
        ] {
            seen.extend(is_so.then(|| what.to_string()));
        }
        seen
    }

    /// What a malformed burst, or one of a special length, is.
    fn of_a_line(line: &Line) -> Vec<String> {
        let mut seen = Vec::new();
        let length = line.sent.len() - usize::from(line.sent.ends_with(b"\n"));
        if [LONGEST_LINE, LONGEST_LINE + 1].contains(&length) {
            seen.push(format!("{length} bytes"));
        }
        if line.answer.as_deref() == Some(b"?") && length <= LONGEST_LINE {
            // The form's own word and four to a command.
            let by_four = words(line).len() % 4 == 1;
            let is_whole = line.sent.ends_with(b"\n");
            seen.push(format!("malformed, by four: {by_four}, whole: {is_whole}"));
        }
        seen
    }

    /// What a script's bursts, and the lines behind them, come to.
    fn bursts_seen(script: &Script) -> Vec<String> {
        let mut seen = Vec::new();
        let mut console = Console::new();
        // Take-backs in a row behind a burst, and whether it was the last line that wrote anything.
        let (mut backs, mut fresh) = (0, false);
        for line in &script.lines {
            let answer = line.answer.as_deref().unwrap_or_default();
            if is_burst(line) {
                seen.extend(of_a_line(line));
            }
            if let Some(told) = told(line) {
                seen.push(format!("{:?}", script.mood));
                let list = commands(&words(line)[1..]).unwrap();
                seen.extend(of_a_list(&console.state, &list, told));
                (backs, fresh) = (0, told[0] > 0);
            } else if answer == b"back 0" {
                backs += 1;
            } else if answer == b"back 8" && fresh && backs >= 64 {
                seen.push("to the bottom".to_string());
            } else if answer == b"restore 0 0" && fresh {
                seen.push("restored".to_string());
            } else if answer.starts_with(b"open 0") || answer.starts_with(b"offer 0") {
                fresh = false;
            }
            console.feed(&line.sent);
        }
        seen
    }

    fn scripts() -> Vec<Script> {
        let script = |seed| script_with(seed, 500, WITH_BURSTS);
        (0..SCRIPTS).map(script).collect()
    }

    /// The edges that a hundred scripts reach, and how often at least.
    fn due() -> Vec<(String, u64)> {
        let mut due: Vec<(String, u64)> = [
            ("0 in a session: false", 20),
            ("1 in a session: false", 5),
            ("2 in a session: false", 10),
            ("0 in a session: true", 100),
            ("1 in a session: true", 40),
            ("2 in a session: true", 500),
            ("1 alone", 5),
            ("1 first", 10),
            ("9 first", 20),
            ("9 between", 20),
            ("9 last", 5),
            ("past the depth", 50),
            ("past the depth by far", 5),
            ("past the window", 100),
            ("window met within", 5),
            ("the most commands", 20),
            ("above 8 bits", 50),
            ("above 32 bits", 20),
            ("behind a take-back", 30),
            ("4096 bytes", 10),
            ("4097 bytes", 5),
            ("malformed, by four: true, whole: true", 30),
            ("malformed, by four: false, whole: true", 30),
            ("malformed, by four: true, whole: false", 3),
            ("to the bottom", 10),
            ("restored", 50),
        ]
        .map(|(key, least)| (key.to_string(), least))
        .to_vec();
        for place in ["first", "between", "last"] {
            due.extend([2, 3, 4, 5, 6, 7, 12].map(|number| (format!("{number} {place}"), 5)));
        }
        due.extend(MOODS.map(|mood| (format!("{mood:?}"), 20)));
        due
    }

    #[test]
    fn scripts_reach_every_edge_of_a_burst() {
        let mut seen: BTreeMap<String, u64> = BTreeMap::new();
        for key in scripts().iter().flat_map(bursts_seen) {
            *seen.entry(key).or_default() += 1;
        }
        let missing: Vec<(String, u64)> = due()
            .into_iter()
            .filter(|(key, least)| seen.get(key).is_none_or(|n| n < least))
            .collect();
        assert!(missing.is_empty(), "{missing:?}\n{seen:?}");
    }

    #[test]
    fn scripts_without_bursts_have_none() {
        let forms = Forms {
            bursts: false,
            ..WITH_BURSTS
        };
        for seed in 0..26 {
            let script = script_with(seed, 200, forms);
            assert!(!script.lines.iter().any(is_burst));
        }
    }

    /// Whether a console with this burst answers a script otherwise.
    fn differs(script: &Script, burst: wrong::Burst) -> bool {
        let mut console = Console::new();
        script.lines.iter().any(|line| {
            let expected = line.answer.as_deref().unwrap_or_default();
            if told(line).is_none() {
                let mut got = console.feed(&line.sent);
                got.extend(console.finish());
                return got.strip_suffix(b"\n").unwrap_or_default() != expected;
            }
            let list = commands(&words(line)[1..]).unwrap();
            let lent = &mut console.journal[..console.lent];
            let got = burst_answer(burst(&mut console.state, lent, &list));
            got.as_bytes() != expected
        })
    }

    /// Each wrong burst is found by some of a hundred scripts, and the right one by none.
    #[test]
    fn scripts_tell_wrong_bursts() {
        let scripts = scripts();
        let found = |burst| scripts.iter().filter(move |s| differs(s, burst));
        assert_eq!(found(wrong::RIGHT.0).count(), 0);
        for (name, burst) in wrong::bursts() {
            assert_eq!(found(burst).take(5).count(), 5, "{name}");
        }
    }
}
