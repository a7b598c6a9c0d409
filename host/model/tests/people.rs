//! What a person at the laboratory meets: the examples, the recipe for traces
//! of power tools, the help pages, wrong arguments, a long trace.

use rossinhiu_model::console::Console;
use rossinhiu_model::file::FileConsole;
use rossinhiu_model::generate::opening_a;
use rossinhiu_model::harness::*;
use rossinhiu_model::listing::list;
use rossinhiu_model::model::NAMES;
use std::collections::BTreeSet;
use std::ffi::OsStr;
use std::fs;
use std::io::Write;
use std::os::unix::ffi::OsStrExt;
use std::path::{Path, PathBuf};
use std::time::{Duration, Instant};

rossinhiu_model::of_both! {
    examples_print_what_is_written,
    a_day_with_a_mains_failure,
    a_trace_of_a_power_tool,
    an_odd_name_is_a_file,
    a_million_lines_in_seconds,
}

fn example(name: &str) -> PathBuf {
    top().join("examples").join(name)
}

fn bytes(name: &str) -> Vec<u8> {
    let path = example(name);
    fs::read(&path).unwrap_or_else(|e| panic!("{}: {e}", path.display()))
}

fn text(name: &str) -> String {
    String::from_utf8(bytes(name)).unwrap()
}

fn modelled(input: &[u8]) -> String {
    let mut console = Console::new();
    let mut out = console.feed(input);
    out.extend(console.finish());
    String::from_utf8(out).unwrap()
}

// Examples.

fn examples_print_what_is_written(programs: &Programs) {
    let _turn = turn();
    let mut names = BTreeSet::new();
    for entry in fs::read_dir(example("")).unwrap() {
        let name = entry.unwrap().file_name().into_string().unwrap();
        if let Some(front) = name.strip_suffix(".trace") {
            names.insert(front.to_string());
        }
    }
    for name in [
        "first",
        "settings-a",
        "odd-gaps",
        "data-sheet",
        "burst",
        "ratio",
        "banks",
    ] {
        let trace = bytes(&format!("{name}.trace"));
        let expected = text(&format!("{name}.out"));
        assert_eq!(modelled(&trace), expected, "{name} by the model");
        let ran = run(&mut command(&programs.bench(), &[]), &trace);
        assert_eq!(ran.text(), expected, "{name}");
        assert!(names.remove(name));
    }
    // These are played by the tests below, and by tests/player.rs.
    for name in ["day-1", "day-2", "power-tool-opening", "player"] {
        assert!(names.remove(name));
    }
    assert!(names.is_empty(), "no test plays {names:?}");
}

/// The guide's table of what the ratio costs is what its own command prints, and has a loss of each size.
#[test]
fn what_the_ratio_costs() {
    let _turn = turn();
    let guide = fs::read_to_string(top().join("docs/GUIDE.md")).unwrap();
    let start = "    rossinhiu bench < examples/ratio.trace";
    let line = guide.lines().find(|line| line.starts_with(start)).unwrap();
    let mut shell = command(Path::new("sh"), &[]);
    shell.args(["-c", &line.replace("rossinhiu ", "\"$0\" ")]);
    shell.arg(&tool(&["bench"]).path);
    let table = run(shell.current_dir(top()), b"").text();
    assert!(guide.contains(&format!("\n\n{table}\n")), "{table}");
    let rows: Vec<&str> = table.lines().skip(2).collect();
    assert_eq!(rows.len(), 20);
    let last: BTreeSet<&str> = rows
        .iter()
        .map(|row| row.trim_end_matches(" |").rsplit(' ').next().unwrap())
        .collect();
    assert_eq!(last, BTreeSet::from(["-", "0", "1", "2", "3"]));
}

/// Settings A in the example are document 01's, as the model has them.
#[test]
fn settings_a_are_document_01s() {
    let opening = opening_a();
    let trace = text("settings-a.trace");
    assert_eq!(trace.lines().filter(|l| *l == opening).count(), 2);
}

fn a_day_with_a_mains_failure(programs: &Programs) {
    let _turn = turn();
    let folder = Folder::new();
    let path = folder.at("day.journal");
    let mut file = Vec::new();
    for (part, loose) in [("day-1", 40), ("day-2", 0)] {
        let trace = bytes(&format!("{part}.trace"));
        let expected = text(&format!("{part}.out"));
        let mut model = FileConsole::over(&file);
        let by_model = format!("restore 0 0\n{}", model.play(&trace));
        assert_eq!(by_model, expected, "{part} by the model");
        let ran = run(&mut command(&programs.bench(), &[&path]), &trace);
        assert_eq!(ran.text(), expected, "{part}");
        assert_eq!(ran.said(), "");
        file = model.file;
        file.extend(vec![0; loose]);
        let mut journal = fs::OpenOptions::new().append(true).open(&path).unwrap();
        journal.write_all(&vec![0; loose]).unwrap();
        assert_eq!(fs::read(&path).unwrap(), file, "{part}");
    }
    assert_eq!(list(&file), bytes("day.list"));
    let listed = run(&mut command(&programs.list(), &[]), &file);
    assert_eq!(listed.text(), text("day.list"));
}

/// The guide's commands, typed into a shell as they stand there, give what it
/// says: a client's stretch, his lines of the listing, a bad last record cut off.
#[test]
fn the_guide_does_what_it_says() {
    let _turn = turn();
    let (folder, bench) = (Folder::new(), tool(&["bench"]));
    let path = folder.at("day.journal");
    let played = run(&mut command(&bench, &[&path]), &bytes("day-1.trace"));
    let guide = fs::read_to_string(top().join("docs/GUIDE.md")).unwrap();
    let typed = |start: &str| -> String {
        let start = format!("    {start}");
        let found = guide.lines().find(|line| line.starts_with(&start));
        let line = found.unwrap_or_else(|| panic!("`{start}` is not in the guide"));
        let line = line.replace("rossinhiu ", "\"$0\" ");
        let mut shell = command(Path::new("sh"), &[]);
        shell.args(["-c", &line]).arg(&bench.path);
        run(shell.current_dir(&folder.0), b"").text()
    };
    typed("rossinhiu stretch day.journal");
    let hex = |name: &str| -> String {
        let bytes = fs::read(folder.at(name)).unwrap();
        bytes.iter().map(|b| format!("{b:02x}")).collect()
    };
    let told = played.text();
    let stretch = told.lines().find(|l| l.starts_with("stretch ")).unwrap();
    assert_eq!(stretch, format!("stretch 576 {}", hex("client7.stretch")));
    let his = typed("rossinhiu list day.journal --client 9");
    assert_eq!(his, "9 open 9\n10 ACT 0 0 0\n11 RD 0 0 5\n12 ACT 0 1 6\n");
    let last = typed("rossinhiu list day.journal --last");
    assert_eq!(last, "10 ACT 0 0 0\n11 RD 0 0 5\n12 ACT 0 1 6\nend 13 0\n");
    // Record 12 is the last of the day so far; it is spoiled, and cut off as the guide says.
    let mut bad = fs::read(&path).unwrap();
    bad[64 * 12 + 63] = 1;
    fs::write(&path, &bad).unwrap();
    let refused = run(&mut command(&bench, &[&path]), b"");
    assert_eq!(refused.text(), "restore 11 12\n");
    typed("cp day.journal");
    typed("truncate -s");
    assert_eq!(fs::read(folder.at("day.journal.bad")).unwrap(), bad);
    let again = run(&mut command(&bench, &[&path]), b"status\n");
    assert_eq!(again.text(), "restore 0 0\nstatus 0 9 9 2 2 5 12\n");
}

/// The summary that the guide shows is that of the first example.
#[test]
fn the_guide_shows_a_summary() {
    let _turn = turn();
    let guide = fs::read_to_string(top().join("docs/GUIDE.md")).unwrap();
    let ran = run(&mut command(&tool(&["bench"]), &[]), &bytes("first.trace"));
    for line in ran.summary.lines() {
        assert!(guide.contains(&format!("    {line}\n")), "{line}");
    }
}

/// A section of the guide.
fn section(title: &str) -> String {
    let guide = fs::read_to_string(top().join("docs/GUIDE.md")).unwrap();
    let (_, behind) = guide.split_once(&format!("## {title}\n")).expect(title);
    behind.split("\n## ").next().unwrap().to_string()
}

/// The lines that a section shows: those typed, which stand in this trace, and the others, which are told.
fn shown<'a>(section: &'a str, trace: &str) -> (Vec<&'a str>, Vec<&'a str>) {
    let lines = section.lines().filter_map(|l| l.strip_prefix("    "));
    lines.partition(|line| trace.lines().any(|l| l == *line))
}

/// What the guide types of a data sheet stands in the example, what it shows
/// is printed, and its table has the same numbers.
#[test]
fn the_guide_goes_from_a_data_sheet_to_an_opening() {
    let section = section("From a data sheet to an opening");
    let (typed, told) = shown(&section, &text("data-sheet.trace"));
    assert_eq!(
        modelled((typed.join("\n") + "\n").as_bytes()),
        told.join("\n") + "\n"
    );
    assert_eq!(typed[1], opening_a());
    for answer in ["gaps 0 0 ", "open 0", "gaps 13 0 ", "gaps 14 17 "] {
        assert!(told.iter().any(|l| l.starts_with(answer)), "{answer}");
    }
    let column = |n: usize| -> Vec<&str> {
        let rows = section.lines().filter(|l| l.starts_with("| "));
        rows.skip(1)
            .map(|l| l.split(" | ").nth(n).unwrap().trim_end_matches(" |"))
            .collect()
    };
    assert_eq!(format!("gaps 625 {}", column(3).join(" ")), typed[0]);
    assert_eq!(format!("gaps 0 0 {}", column(4).join(" ")), told[0]);
}

/// The guide's bursts stand in the example, and with settings A open their answers are those that it shows.
#[test]
fn the_guide_plays_bursts() {
    let section = section("A burst of commands");
    let (typed, told) = shown(&section, &text("burst.trace"));
    let trace = format!("{}\n{}\n", opening_a(), typed.join("\n"));
    let due = format!("open 0\n{}\n", told.join("\n"));
    assert_eq!(modelled(trace.as_bytes()), due);
    assert!(told.contains(&"burst 1 7 13 4 2"));
    assert!(section.contains("`7 13 4 2`") && section.contains("`burst 0 0 0 0 0`"));
    assert_eq!(modelled(b"burst\n"), "burst 0 0 0 0 0\n");
}

/// What the guide offers a bank stands in the example, and its answers are those that it shows.
#[test]
fn the_guide_shows_what_a_bank_can_do() {
    let section = section("What a bank can do");
    let (typed, told) = shown(&section, &text("banks.trace"));
    let due = told.join("\n") + "\n";
    assert_eq!(modelled((typed.join("\n") + "\n").as_bytes()), due);
    assert_eq!(told.iter().filter(|l| **l == "offer 12 0 0 0").count(), 2);
}

// Traces of power tools.

fn recipe(csv: &[u8], rank: Option<u32>) -> String {
    let mut awk = command(Path::new("awk"), &[]);
    if let Some(rank) = rank {
        awk.args(["-v", &format!("rank={rank}")]);
    }
    awk.arg("-f").arg(example("from-csv.awk"));
    let ran = run(&mut awk, csv);
    assert_eq!(ran.said(), "");
    ran.text()
}

fn a_trace_of_a_power_tool(programs: &Programs) {
    let _turn = turn();
    let lines = recipe(&bytes("power-tool.csv"), None);
    assert_eq!(lines, text("power-tool.lines"));
    let trace = text("power-tool-opening.trace") + &lines;
    let expected = text("power-tool.out");
    assert_eq!(modelled(trace.as_bytes()), expected);
    let ran = run(&mut command(&programs.bench(), &[]), trace.as_bytes());
    assert_eq!(ran.text(), expected);
    assert!(expected.contains("offer 7 "), "one command is too early");
}

#[test]
fn the_recipe_knows_every_command() {
    let _turn = turn();
    let given = b"1,ACT,1\n2,RD,2\r\n3,WR,3\n\n4,PRE,4\n5,PREA,5\n6,REF,6\n7,REFB,7\n8,prepb,8\n9,REFAB,9\n\
        10,SREN,0\n11,NOP,0\n12345678901234567,RDA,15\n13,END,0\n";
    let expected = "offer ACT 1 1 1\noffer RD 1 2 2\noffer WR 1 3 3\noffer PREPB 1 4 4\noffer PREAB 1 0 5\n\
        offer REFAB 1 0 6\noffer REFPB 1 7 7\noffer PREPB 1 8 8\noffer REFAB 1 0 9\n# left out: 10,SREN,0\n\
        # RDA: its precharge is not checked; bank 15 counts as open\noffer RD 1 15 12345678901234567\n";
    assert_eq!(recipe(given, Some(1)), expected);
}

// Help and arguments.

fn plain(program: &Program, words: &[&str]) -> Ran {
    let words: Vec<&Path> = words.iter().map(Path::new).collect();
    // Nobody waits for a help page: standard input has nothing.
    run(&mut command(program, &words), b"")
}

#[test]
fn bench_help_has_the_forms_and_the_numbers() {
    let _turn = turn();
    let programs = Programs::RATTLE;
    let ran = plain(&programs.bench(), &["--help"]);
    assert_eq!(ran.said(), "");
    let page = ran.text();
    let forms = [
        "bench FILE",
        "bench --help",
        "open RATIO RANKS MODE CLIENT G1 .. G20 open N",
        "offer KIND RANK BANK CYCLE offer N CYCLE GAP LOSS",
        "burst KIND RANK BANK CYCLE .. burst COUNT N CYCLE GAP LOSS",
        "ask KIND RANK BANK ask N CYCLE GAP LOSS",
        "back back N",
        "status status N CLIENT OPENING SURVIVORS DEPTH LAST RECORDS",
        "stretch stretch LENGTH HEX",
        "lend BYTES lend BYTES",
        "restore BYTES restore N AT",
        "poke AT BYTE poke AT BYTE",
        "bytes FROM COUNT bytes HEX",
        "gaps TCK T1 .. T20 gaps N GAP G1 .. G20",
        "0 accepted",
        "1 no session open",
        "2 command kind not 1 to 7",
        "3 rank not below the session's ranks",
        "4 bank above 15, or not 0 with PREAB or REFAB",
        "5 cycle above 1099511627775",
        "6 cycle not later than the last survivor's",
        "7 too early",
        "8 depth is 0",
        "9 no room for a record",
        "10 ratio not 1, 2, 4; ranks not 1, 2; mode not 0, 2",
        "11 bad record in a restore",
        "12 wrong bank state",
        "13 TCK not 1 to 1000000",
        "14 a time above 4294967295, or a gap above 65535",
    ];
    let lines: Vec<String> = page
        .lines()
        .map(|l| l.split_whitespace().collect::<Vec<_>>().join(" "))
        .collect();
    for form in forms {
        let found = lines.iter().filter(|l| l.starts_with(form)).count();
        assert!(found == 1, "`{form}` stands {found} times in:\n{page}");
    }
    for name in NAMES {
        assert!(page.contains(name), "{name}");
    }
    assert!(page.contains("1 tRC ") && page.contains("20 tFAW"));
}

#[test]
fn list_help_has_the_forms() {
    let _turn = turn();
    let programs = Programs::RATTLE;
    let ran = plain(&programs.list(), &["--help"]);
    assert_eq!(ran.said(), "");
    for form in [
        "list < FILE",
        "list --help",
        "NUMBER open CLIENT",
        "NUMBER KIND RANK BANK CYCLE",
        "NUMBER back",
        "end RECORDS BYTES",
        "bad NUMBER",
    ] {
        assert!(ran.text().contains(form), "`{form}`: {}", ran.text());
    }
    for number in ["answers 0", "answers 11", "with 9"] {
        assert!(ran.text().contains(number), "{number}");
    }
}

/// A wrong argument says what is expected, and nothing is played or made.
#[test]
fn wrong_arguments_say_what_is_expected() {
    let _turn = turn();
    let programs = Programs::RATTLE;
    let folder = Folder::new();
    let name = folder.at("journal");
    let name = name.to_str().unwrap();
    for words in [
        vec![name, name],
        vec!["--help", name],
        vec![name, "--help", "x"],
    ] {
        let ran = plain(&programs.bench(), &words);
        assert_eq!(ran.text(), "", "{words:?}");
        assert_eq!(ran.said().lines().count(), 1, "{words:?}");
        assert!(ran.said().contains("expected"), "{}", ran.said());
        assert!(ran.said().contains("FILE") && ran.said().contains("--help"));
    }
    assert!(!Path::new(name).exists());
    let long = "x".repeat(5000);
    let deep = format!("{name}{}", "/x".repeat(2000));
    for word in [&long, &deep, ""] {
        let ran = plain(&programs.bench(), &[word]);
        assert_eq!(ran.text(), "");
        assert_eq!(ran.said().lines().count(), 1, "{}", ran.said());
    }
    for words in [vec![name], vec!["-h"], vec!["--help", "x"]] {
        let ran = plain(&programs.list(), &words);
        let asked = words[0] == "--help";
        assert_eq!(ran.text().is_empty(), !asked, "{words:?}");
        assert_eq!(ran.said().contains("list < FILE"), !asked, "{words:?}");
    }
}

/// Any bytes but a slash and a zero make a file's name. Rattle's library opens names of UTF-8 text alone: of any other one `bench` says
/// so, and makes and plays nothing.
fn an_odd_name_is_a_file(programs: &Programs) {
    let _turn = turn();
    let folder = Folder::new();
    for name in [
        b"-h".as_slice(),
        b"--help ",
        b"a b",
        b"\xff\n",
        b"\xc3\xa9\n",
        b"...",
    ] {
        let path = OsStr::from_bytes(name);
        let mut command = command(&programs.bench(), &[Path::new(path)]);
        let ran = run(command.current_dir(&folder.0), b"back\n");
        if !programs.is_tool() && path.to_str().is_none() {
            assert_eq!(ran.text(), "");
            assert!(ran.said().contains("no UTF-8 text"), "{}", ran.said());
            assert!(!folder.0.join(path).exists());
            continue;
        }
        assert_eq!(ran.text(), "restore 0 0\nback 1\n");
        assert_eq!(fs::read(folder.0.join(path)).unwrap(), b"");
    }
}

// A long trace.

/// A million lines, in seconds. Every answer is the model's.
fn a_million_lines_in_seconds(programs: &Programs) {
    let _turn = turn();
    let mut trace = Vec::new();
    let mut expected = Vec::new();
    let mut console = Console::new();
    let opening = opening_a();
    let mut cycle = 0;
    for i in 0..1_000_000_u64 {
        let bank = i / 4 % 16;
        let line = match i % 4 {
            _ if i % 400 == 0 => {
                cycle = 0;
                opening.clone()
            }
            0 => format!("offer ACT 0 {bank} {cycle}"),
            1 => format!("offer RD 0 {bank} {cycle}"),
            2 => format!("ask WR 0 {bank}"),
            _ => format!("offer PREPB 0 {bank} {cycle}"),
        };
        cycle += 6;
        if let Some(answer) = console.line(line.as_bytes(), true) {
            expected.extend_from_slice(answer.as_bytes());
            expected.push(b'\n');
        }
        trace.extend_from_slice(line.as_bytes());
        trace.push(b'\n');
    }
    let begun = Instant::now();
    let ran = run(&mut command(&programs.bench(), &[]), &trace);
    let taken = begun.elapsed();
    assert!(ran.out == expected, "the answers differ");
    println!("a million lines in {taken:.1?}");
    // A time in an emulator says nothing.
    if cfg!(target_arch = "x86_64") {
        assert!(taken < Duration::from_secs(15), "it took {taken:?}");
    }
}
