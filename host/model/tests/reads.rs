//! Reads that fail, are interrupted or come short, and a last line without its
//! newline: `bench` in memory and over a file, and `list`.

use rossinhiu_model::file::{sent, steps, FileConsole};
use rossinhiu_model::generate::{in_mode, opening_a, script, Rng};
use rossinhiu_model::harness::*;
use rossinhiu_model::listing::{list, list_broken};
use rossinhiu_model::model::RECORD;
use std::fs;
use std::path::Path;

rossinhiu_model::of_both! {
    a_failed_read_plays_whole_lines_only,
    a_folder_is_no_input,
    interrupted_and_short_reads_change_nothing,
    a_failed_read_breaks_the_listing_off,
    a_last_line_without_newline_is_not_played,
    a_cut_trace_leaves_the_session_of_its_whole_lines,
}

/// Plays an input under these plans, in memory or over a file of these bytes.
/// What is printed, and the file, are the model's for the part that counts.
fn assert_played(
    (programs, folder): (&Programs, &Folder),
    base: Option<&[u8]>,
    plan: &str,
    (input, counts): (&[u8], &[u8]),
) -> Ran {
    let (path, source) = (folder.at("journal"), folder.at("input"));
    fs::write(&source, input).unwrap();
    let mut model = FileConsole::over(base.unwrap_or_default());
    model.console.in_file = base.is_some();
    let mut expected = model.play(counts);
    let mut words: Vec<&Path> = Vec::new();
    if let Some(base) = base {
        fs::write(&path, base).unwrap();
        words.push(&path);
        expected.insert_str(0, "restore 0 0\n");
    }
    let log = folder.at("log");
    let ran = run_over(&mut shimmed(&programs.bench(), &words, &log, plan), &source);
    ran.ended_by_itself();
    assert_eq!(ran.text(), expected, "{plan}");
    if base.is_some() {
        assert_file(&path, &model.file, plan);
    }
    ran
}

/// A journal of some records, the last session in mode 1, with loose bytes behind.
fn base() -> Vec<u8> {
    let mut model = FileConsole::over(b"");
    steps(&mut Rng::new(seed()), &mut model, 30);
    let mut file = model.file;
    let (at, records) = in_mode(&file, 1).expect("an opening");
    file[at] = 1;
    file.truncate(RECORD * records);
    [file, vec![5; 11]].concat()
}

const UNREAD: [&str; 2] = ["standard input can't be read", "Input/output error"];

/// A read that fails is not the end: a line under way may go on, as the last gap
/// of an opening, 32, of which only the 3 came.
fn a_failed_read_plays_whole_lines_only(programs: &Programs) {
    let _turn = turn();
    let folder = Folder::new();
    let base = base();
    let mut rng = Rng::new(seed() + 1);
    let second = "open 2 2 2 9 60 8 18 42 8 8 4 20 8 24 26 18 34 18 21 4 280 140 90 32";
    let input = format!("{}\noffer ACT 0 3 100\n# \n{second}\nback", opening_a());
    let input = input.as_bytes();
    for count in 0..=input.len() {
        let newline = input[..count].iter().rposition(|b| *b == b'\n');
        let whole = &input[..newline.map_or(0, |at| at + 1)];
        let plan = match (count, rng.below(count.max(1) as u64)) {
            (0, _) => "read 1 errno 5".to_string(),
            (_, 0) => format!("read 1 short {count};read 2 errno 5"),
            (_, first) => {
                let rest = count as u64 - first;
                format!("read 1 short {first};read 2 short {rest};read 3 errno 5")
            }
        };
        for base in [None, Some(base.as_slice())] {
            let ran = assert_played((programs, &folder), base, &plan, (input, whole));
            ran.told(&UNREAD, &plan);
        }
    }
}

fn a_folder_is_no_input(programs: &Programs) {
    let _turn = turn();
    let folder = Folder::new();
    let path = folder.at("journal");
    let words = ["standard input can't be read", "Is a directory"];
    let started = [(vec![], ""), (vec![path.as_path()], "restore 0 0\n")];
    for (name, printed) in started {
        let ran = run_over(&mut command(&programs.bench(), &name), &folder.0);
        ran.ended_by_itself();
        assert_eq!(ran.text(), printed);
        ran.told(&words, "bench");
    }
    assert_file(&path, b"", "a folder as input");
    let ran = run_over(&mut command(&programs.list(), &[]), &folder.0);
    ran.ended_by_itself();
    assert_eq!(ran.text(), "", "no end, for nothing was read");
    ran.told(&words, "list");
}

/// Plans for the first reads: half of them are interrupted, the others come short.
fn disturbed(rng: &mut Rng, call: &str, most: u64) -> String {
    let mut plans = Vec::new();
    for n in 1..=30 {
        plans.push(match rng.chance(50) {
            true => format!("{call} {n} errno 4"),
            false => format!("{call} {n} short {}", rng.between(1, most)),
        });
    }
    plans.join(";")
}

/// However the bytes come, and however often a signal comes between, the output is the same.
fn interrupted_and_short_reads_change_nothing(programs: &Programs) {
    let _turn = turn();
    let folder = Folder::new();
    let (base, log) = (base(), folder.at("log"));
    let mut rng = Rng::new(seed() + 2);
    for round in 0..20 {
        let script = script(seed() + round, 40).input();
        let most = rng.pick(&[2, 20, 200, 5_000]);
        let plan = match round {
            0 => "read 1 errno 4".to_string(),
            _ => disturbed(&mut rng, "read", most),
        };
        let ran = assert_played((programs, &folder), None, &plan, (&script, &script));
        assert_eq!(ran.said(), "", "{plan}");
        let plan = match round {
            0 => "pread 1 errno 4;pread 2 errno 4;read 2 errno 4".to_string(),
            _ => disturbed(&mut rng, "pread", most),
        };
        let ran = assert_played((programs, &folder), Some(&base), &plan, (&script, &script));
        assert_eq!(ran.said(), "", "{plan}");
        let plan = disturbed(&mut rng, "read", most);
        let (source, expected) = (folder.at("journal"), fs::read(folder.at("journal")));
        let ran = run_over(&mut shimmed(&programs.list(), &[], &log, &plan), &source);
        assert!(ran.out == list(&expected.unwrap()), "{plan}");
        assert_eq!(ran.said(), "", "{plan}");
    }
}

/// The lines of the whole records that came, and no end: the journal goes on.
fn a_failed_read_breaks_the_listing_off(programs: &Programs) {
    let _turn = turn();
    let folder = Folder::new();
    let (source, log) = (folder.at("journal"), folder.at("log"));
    let mut model = FileConsole::over(b"");
    while model.file.len() < 2_000 * RECORD {
        steps(&mut Rng::new(seed()), &mut model, 100);
    }
    let journal = model.file;
    fs::write(&source, &journal).unwrap();
    for (plan, came) in [
        ("read 1 errno 5", 0),
        ("read 1 short 63;read 2 errno 5", 63),
        ("read 1 short 60;read 2 short 5;read 3 errno 5", 65),
        ("read 1 short 640;read 2 errno 4;read 3 errno 5", 640),
        ("read 1 short 65535;read 2 short 1;read 3 errno 5", 65_536),
        ("read 2 errno 5", 65_536),
        ("read 2 short 33;read 3 errno 5", 65_569),
        ("read 2 short 6400;read 3 errno 5", 71_936),
    ] {
        let _ = fs::remove_file(&log);
        let ran = run_over(&mut shimmed(&programs.list(), &[], &log, plan), &source);
        ran.ended_by_itself();
        let calls = calls(&log);
        let reads = calls.iter().filter(|c| c.name == "read" && c.result > 0);
        let taken: i64 = reads.map(|c| c.result).sum();
        assert_eq!(taken, came as i64, "{plan}");
        assert!(ran.out == list_broken(&journal[..came]), "{plan}");
        ran.told(&UNREAD, plan);
    }
}

// What stands behind the last newline.

/// Blanks, comments, requests that would be accepted or refused, one that was cut, one that is too long.
fn last_lines() -> Vec<String> {
    let words = "back|back\r|status|stretch|lend 0|restore 0|poke 0 1|bytes 0 1|ask ACT 0 0|offer ACT 0 1 5|offer ACT 0 1 500|open";
    let silent = " |\t|\r| \r|#|# end|# end\r|\0";
    let short = words.split('|').chain(silent.split('|'));
    let mut lasts: Vec<String> = short.map(str::to_string).collect();
    let opening = opening_a();
    lasts.push(opening[..opening.len() - 1].to_string());
    lasts.push(opening);
    lasts.push("#".repeat(4_097));
    lasts
}

/// It was cut short: it prints `?`, whatever it says, and is not played.
fn a_last_line_without_newline_is_not_played(programs: &Programs) {
    let _turn = turn();
    let folder = Folder::new();
    let base = base();
    let front = format!("{}\noffer ACT 0 0 0\noffer RD 0 0 5\nstatus\n", opening_a());
    for last in last_lines() {
        for base in [None, Some(base.as_slice())] {
            // Alone in one piece, and behind others so that it comes in two.
            let both = format!("{front}{last}");
            let half = format!("read 1 short {}", both.len() - last.len() / 2);
            for (input, plan) in [(&last, ""), (&both, &half)] {
                let input = input.as_bytes();
                let ran = assert_played((programs, &folder), base, plan, (input, input));
                assert!(ran.text().ends_with("?\n"), "{last:?}");
                assert_eq!(ran.said(), "", "{last:?}");
            }
        }
    }
}

/// The next start finds the session that the whole lines left.
fn a_cut_trace_leaves_the_session_of_its_whole_lines(programs: &Programs) {
    let _turn = turn();
    let (bench, folder) = (programs.bench(), Folder::new());
    let path = folder.at("journal");
    let mut model = FileConsole::over(b"");
    let steps = steps(&mut Rng::new(seed() + 3), &mut model, 4);
    let trace = sent(&steps);
    for count in 0..trace.len() {
        let _ = fs::remove_file(&path);
        let cut = &trace[..count];
        let mut model = FileConsole::over(b"");
        let expected = format!("restore 0 0\n{}", model.play(cut));
        let ran = run(&mut command(&bench, &[&path]), cut);
        assert_eq!(ran.text(), expected, "cut to {count}");
        assert_file(&path, &model.file, "a cut trace");
        if cut.ends_with(b"\n") {
            play_on(&bench, &path, &mut Rng::new(count as u64), 3, "a cut trace");
        }
    }
}
