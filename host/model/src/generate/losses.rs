//! Gaps that lose cycles to rounding: request 2026-06 among the other lines of a script.

use super::Player;
use crate::burst_calls::losing_list;
use crate::model::Command;

impl Player {
    /// So many commands that can stand, then one that is too early by a gap with a loss.
    fn losing_list(&mut self, length: usize) -> Vec<Command> {
        let given = (&self.console.state, &self.habits);
        losing_list(&mut self.rng, given, length)
    }

    /// Asked for, offered too early, and accepted, which tells no loss.
    pub(super) fn losses(&mut self) {
        let Some(early) = self.losing_list(0).first().copied() else {
            return;
        };
        let Command {
            kind,
            rank,
            bank,
            cycle,
        } = early;
        let place = (kind, rank, bank);
        if self.rng.chance(60) {
            let kind = self.kind_word(kind);
            self.say(&format!("ask {kind} {rank} {bank}"));
        }
        if self.rng.chance(60) {
            self.offer_at(place, cycle);
        }
        if self.rng.chance(50) {
            let (earliest, _) = self.earliest(place);
            self.offer_at(place, earliest);
        }
        if self.rng.chance(50) {
            self.burst_at_a_loss();
        }
    }

    pub(super) fn burst_at_a_loss(&mut self) {
        if self.forms.bursts {
            let length = self.rng.below(5) as usize;
            let list = self.losing_list(length);
            self.burst(&list);
        }
    }
}

#[cfg(test)]
mod tests {
    use super::super::*;
    use crate::burst_calls::wrong::{losses, right_loss, Loss};
    use crate::console::with_place;
    use crate::model::Answer;
    use std::collections::BTreeMap;
    use std::sync::OnceLock;

    const SCRIPTS: u64 = 104;

    /// An answer of a call that tells a loss: what stands before its number, and the answer.
    fn told(line: &str) -> Option<(&str, Answer)> {
        let place = match line.split(' ').next() {
            Some("offer" | "ask") => 1,
            // How many were accepted comes first.
            Some("burst") => 2,
            _ => return None,
        };
        let at = line.match_indices(' ').nth(place - 1)?.0;
        let numbers: Option<Vec<u128>> =
            line[at + 1..].split(' ').map(|w| w.parse().ok()).collect();
        let [number, cycle, gap, loss] = numbers?[..] else {
            panic!("not four numbers: {line}");
        };
        let [number, gap, loss] = [number, gap, loss].map(|n| n as u64);
        let answer = Answer {
            number,
            cycle,
            gap,
            loss,
        };
        Some((&line[..at], answer))
    }

    fn text(line: &Line) -> &str {
        std::str::from_utf8(line.answer.as_deref().unwrap_or_default()).unwrap()
    }

    fn scripts() -> &'static [Script] {
        static MADE: OnceLock<Vec<Script>> = OnceLock::new();
        MADE.get_or_init(|| (0..SCRIPTS).map(|seed| script(seed, 500)).collect())
    }

    /// What the losses of a script come to: by call and loss, by ratio, and by the gaps that lose something.
    fn losses_seen(script: &Script) -> Vec<String> {
        let mut console = Console::new();
        let mut seen = Vec::new();
        for line in &script.lines {
            console.feed(&line.sent);
            console.finish();
            let Some((front, answer)) = told(text(line)) else {
                continue;
            };
            let call = front.split(' ').next().unwrap_or_default();
            let Answer {
                number, gap, loss, ..
            } = answer;
            if gap == 0 {
                assert_eq!(loss, 0, "{}", text(line));
                seen.push(format!("{call} {number} without a gap"));
                continue;
            }
            let ratio = console.state.session().map_or(0, |s| s.1.ratio);
            assert!(loss < ratio, "{}", text(line));
            seen.push(format!("{call} {number}: loss {loss}"));
            seen.push(format!("ratio {ratio}: loss {loss}"));
            if loss > 0 {
                seen.push(format!("{call} by gap {gap}"));
            }
        }
        seen
    }

    /// What a hundred scripts reach, and how often at least.
    fn due() -> Vec<(String, u64)> {
        let mut due = Vec::new();
        for loss in 0..4 {
            due.push((format!("offer 7: loss {loss}"), 100));
            due.push((format!("ask 0: loss {loss}"), 200));
            due.push((format!("burst 7: loss {loss}"), 15));
        }
        for (ratio, losses) in [(1, 1), (2, 2), (4, 4)] {
            due.extend((0..losses).map(|loss| (format!("ratio {ratio}: loss {loss}"), 100)));
        }
        for gap in 1..=20 {
            due.extend([("offer", 5), ("ask", 15)].map(|(c, n)| (format!("{c} by gap {gap}"), n)));
        }
        let bare = [
            ("offer", 0),
            ("ask", 0),
            ("burst", 0),
            ("offer", 6),
            ("burst", 6),
        ];
        due.extend(bare.map(|(call, number)| (format!("{call} {number} without a gap"), 20)));
        due
    }

    /// Scripts that never lose anything could not show a loss that is wrong.
    #[test]
    fn scripts_reach_every_loss() {
        let mut seen: BTreeMap<String, u64> = BTreeMap::new();
        for key in scripts().iter().flat_map(losses_seen) {
            *seen.entry(key).or_default() += 1;
        }
        let missing: Vec<(String, u64)> = due()
            .into_iter()
            .filter(|(key, least)| seen.get(key).is_none_or(|n| n < least))
            .collect();
        assert!(missing.is_empty(), "{missing:?}\n{seen:?}");
        let in_bursts = seen.keys().filter(|key| key.starts_with("burst by gap "));
        assert!(in_bursts.count() >= 18, "{seen:?}");
        assert!(!seen.keys().any(|key| key.starts_with("ratio 0")));
    }

    /// Whether a console that tells this loss answers a script otherwise.
    fn differs(script: &Script, loss: Loss) -> bool {
        let mut console = Console::new();
        script.lines.iter().any(|line| {
            console.feed(&line.sent);
            console.finish();
            let Some((front, answer)) = told(text(line)) else {
                return false;
            };
            let call = front.split(' ').next().unwrap_or_default();
            let loss = loss(&console.state, call, answer);
            with_place(front, Answer { loss, ..answer }) != text(line)
        })
    }

    /// Each wrong loss is found by many of a hundred scripts, and the right one by none.
    #[test]
    fn scripts_tell_wrong_losses() {
        let scripts = scripts();
        let found = |loss| scripts.iter().filter(move |s| differs(s, loss));
        assert_eq!(found(right_loss).count(), 0);
        for (name, loss) in losses() {
            assert_eq!(found(loss).take(25).count(), 25, "{name}");
        }
    }
}
