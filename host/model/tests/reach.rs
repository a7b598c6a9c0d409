//! The hand-steered script in reach/: its expected output is the model's, and it
//! holds every answer number of every call but a restore's 9.

use rossinhiu_model::console::Console;
use rossinhiu_model::harness::top;
use rossinhiu_model::model::{State, LAST_CYCLE, NAMES};
use std::collections::BTreeSet;
use std::fs;
use std::path::Path;

fn file(name: &str) -> Vec<u8> {
    let path = Path::new(env!("CARGO_MANIFEST_DIR"))
        .join("reach")
        .join(name);
    fs::read(&path).unwrap_or_else(|error| panic!("{}: {error}", path.display()))
}

#[test]
fn the_expected_output_is_the_models() {
    let mut console = Console::new();
    let mut out = console.feed(&file("stdin"));
    out.extend(console.finish());
    assert!(
        out == file("stdout"),
        "`model_console < reach/stdin` gives another reach/stdout"
    );
}

/// The product's own gate plays the same script.
#[test]
fn the_programs_own_run_is_this_script() {
    for name in ["stdin", "stdout"] {
        let beside = fs::read(top().join("crates/bench").join(name)).unwrap();
        assert!(beside == file(name), "crates/bench/{name} is another");
    }
}

#[test]
fn every_answer_is_reached() {
    let text = String::from_utf8(file("stdout")).expect("answers are plain text");
    let lines: Vec<Vec<&str>> = text.lines().map(|l| l.split(' ').collect()).collect();
    let count = |front: &[&str]| lines.iter().filter(|l| l.starts_with(front)).count();

    let calls: [(&str, &[&str]); 7] = [
        ("open", &["0", "9", "10"]),
        (
            "offer",
            &["0", "1", "2", "3", "4", "5", "6", "7", "9", "12"],
        ),
        ("ask", &["0", "1", "2", "3", "4"]),
        ("back", &["0", "1", "8", "9"]),
        ("status", &["0", "1"]),
        ("restore", &["0", "11"]),
        ("gaps", &["0", "13", "14"]),
    ];
    for (call, numbers) in calls {
        for number in numbers {
            assert!(count(&[call, number]) > 0, "{call} {number}");
        }
        // And no number that the call does not have.
        let known: usize = numbers.iter().map(|number| count(&[call, number])).sum();
        assert_eq!(known, count(&[call]), "{call}");
    }

    let bad: BTreeSet<&str> = lines
        .iter()
        .filter(|l| l.starts_with(&["restore", "11"]))
        .map(|l| l[2])
        .collect();
    assert!(bad.len() >= 5, "records named by 11: {bad:?}");

    assert!(count(&["stretch", "0"]) > 0);
    assert!(lines.iter().any(|l| l[0] == "stretch" && l.len() == 3));
    assert!(count(&["lend"]) > 0 && count(&["poke"]) > 0);
    assert!(lines.iter().any(|l| *l == ["bytes"]));
    assert!(lines.iter().any(|l| l[0] == "bytes" && l.len() == 2));
    assert!(count(&["?"]) >= 50);

    let gaps = |call: &str, number: &str, place: usize| -> BTreeSet<u64> {
        let named = lines.iter().filter(|l| l.starts_with(&[call, number]));
        named.map(|l| l[place].parse().unwrap()).collect()
    };
    assert_eq!(gaps("offer", "7", 3), (1..=20).collect());
    assert_eq!(gaps("ask", "0", 3), (0..=20).collect());
    assert_eq!(gaps("gaps", "14", 2), (1..=20).collect());

    let above =
        |l: &Vec<&str>| l.starts_with(&["ask", "0"]) && l[2].parse::<u64>().unwrap() > LAST_CYCLE;
    assert!(lines.iter().any(|l| above(l) && l[3] == "0"));
    assert!(lines.iter().any(|l| above(l) && l[3] != "0"));
}

/// Every number that can end a burst, at its first command and behind an accepted one.
#[test]
fn every_end_of_a_burst_is_reached() {
    let text = String::from_utf8(file("stdout")).expect("answers are plain text");
    let ends = |is_middle: bool| -> BTreeSet<u64> {
        let answers = text.lines().filter_map(|l| l.strip_prefix("burst "));
        let told = answers.filter(|l| l.starts_with("0 ") != is_middle);
        told.map(|l| l.split(' ').nth(1).unwrap().parse().unwrap())
            .collect()
    };
    assert_eq!(ends(false), BTreeSet::from([0, 1, 2, 3, 4, 5, 7, 9, 12]));
    assert_eq!(ends(true), BTreeSet::from([0, 2, 3, 4, 5, 6, 7, 9, 12]));
    // More than can be taken back, in one line.
    assert!(text.contains("\nburst 66 0 0 0 0\n"));
}

/// Every loss of a named gap, told of an offer, a question and a burst; and none beside the answers that name no gap.
#[test]
fn every_loss_is_reached() {
    let text = String::from_utf8(file("stdout")).expect("answers are plain text");
    let mut seen = BTreeSet::new();
    for line in text.lines() {
        let words: Vec<&str> = line.split(' ').collect();
        let told = match words.as_slice() {
            [call @ ("offer" | "ask"), number, _, gap, loss] => (call, number, gap, loss),
            [call @ "burst", _, number, _, gap, loss] => (call, number, gap, loss),
            ["offer" | "ask" | "burst", ..] => panic!("no loss: {line}"),
            _ => continue,
        };
        let (call, number, gap, loss) = told;
        assert!(*gap != "0" || *loss == "0", "{line}");
        let what = if *gap == "0" { "no gap" } else { loss };
        seen.insert(format!("{call} {number}: {what}"));
    }
    for call in ["offer 7", "ask 0", "burst 7"] {
        let due = (0..4).map(|loss| format!("{call}: {loss}"));
        let missing: Vec<String> = due.filter(|key| !seen.contains(key)).collect();
        assert!(missing.is_empty(), "{missing:?}");
    }
    for call in [
        "offer 0", "ask 0", "burst 0", "offer 6", "offer 9", "burst 9", "offer 12", "burst 12",
    ] {
        assert!(seen.contains(&format!("{call}: no gap")), "{call}");
    }
}

/// What an answer shows of the mode of the session that it leaves.
fn shown(mode: u64, answer: &str) -> Option<String> {
    let words: Vec<&str> = answer.trim_end().split(' ').collect();
    let what = match words.as_slice() {
        [call @ ("offer" | "burst"), .., "7", _, gap, _] => format!("{call} 7 by {gap}"),
        ["ask", "0", _, gap, _] => format!("ask 0 by {gap}"),
        ["burst", _, number, ..] => format!("burst {number}"),
        [call @ ("offer" | "back" | "restore" | "open"), number, ..] => format!("{call} {number}"),
        _ => return None,
    };
    Some(format!("mode {mode}: {what}"))
}

/// Each mode's own gaps, by an offer and by a question; bursts, take-backs, a restore, and who opens in it.
#[test]
fn every_mode_is_reached() {
    let mut console = Console::new();
    let mut seen = BTreeSet::new();
    for line in file("stdin").split_inclusive(|b| *b == b'\n') {
        let answer = String::from_utf8(console.feed(line)).expect("answers are plain text");
        if answer == "open 10\n" && line.starts_with(b"open 1 1 1 ") {
            seen.insert("mode 1 refused".to_string());
        }
        let session = console.state.session();
        seen.extend(session.and_then(|(_, opening)| shown(opening.mode, &answer)));
    }
    let mut due = vec!["mode 1 refused".to_string()];
    for (mode, gaps) in [
        (0, vec![5, 10]),
        (1, vec![6, 7, 11, 12]),
        (2, vec![6, 7, 11, 12]),
    ] {
        for what in ["offer 0", "burst 0", "back 0", "restore 0"] {
            due.push(format!("mode {mode}: {what}"));
        }
        for gap in gaps {
            due.extend(["offer 7", "ask 0"].map(|call| format!("mode {mode}: {call} by {gap}")));
        }
    }
    due.extend([0, 2].map(|mode| format!("mode {mode}: open 0")));
    due.extend([1, 2].map(|mode| format!("mode {mode}: burst 7 by 7")));
    let missing: Vec<&String> = due.iter().filter(|key| !seen.contains(*key)).collect();
    assert!(missing.is_empty(), "{missing:?}");
    assert!(!seen.contains("mode 1: open 0"));
}

/// What a line shows of banks: a command that its bank can't do, and what came of it in a session of this edition.
fn of_a_bank(state: &State, line: &str, answer: &str) -> Option<String> {
    let (_, opening) = state.session()?;
    let words: Vec<&str> = line.split_whitespace().collect();
    let ["offer", name, rank, bank, _] = words[..] else {
        return None;
    };
    let kind = 1 + NAMES.iter().position(|n| *n == name)? as u64;
    let (rank, bank) = (rank.parse().ok()?, bank.parse().ok()?);
    let number = answer.split(' ').nth(1)?;
    let is_there = ["0", "6", "7", "9", "12"].contains(&number);
    let is_wrong = is_there && !state.bank_can(kind, rank, bank);
    is_wrong.then(|| format!("edition {}: {name} {number}", opening.edition))
}

/// Every kind that a bank can refuse, in edition 2 and before it; 6 before 12; a REFAB with each bank open alone.
#[test]
fn every_bank_state_is_reached() {
    let mut console = Console::new();
    let mut seen = BTreeSet::new();
    for line in file("stdin").split_inclusive(|b| *b == b'\n') {
        let before = console.state.clone();
        let answer = String::from_utf8(console.feed(line)).expect("answers are plain text");
        let sent = String::from_utf8_lossy(line);
        seen.extend(of_a_bank(&before, &sent, &answer));
        let words: Vec<&str> = sent.split_whitespace().collect();
        if let ["burst", "ACT", "0", bank, _, "REFAB", "0", "0", _] = words[..] {
            seen.insert(format!("bank {bank}: {}", answer.trim_end()));
        }
    }
    let mut due: Vec<String> = (0..16)
        .map(|bank| format!("bank {bank}: burst 1 12 0 0 0"))
        .collect();
    for kind in ["ACT", "RD", "WR", "REFPB", "REFAB"] {
        due.push(format!("edition 2: {kind} 12"));
    }
    due.extend(["edition 2: ACT 6", "edition 2: WR 6"].map(String::from));
    for kind in ["ACT", "RD", "WR"] {
        due.push(format!("edition 1: {kind} 0"));
    }
    due.extend(["edition 0: ACT 0", "edition 0: RD 0"].map(String::from));
    let missing: Vec<&String> = due.iter().filter(|key| !seen.contains(*key)).collect();
    assert!(missing.is_empty(), "{missing:?}");
}
