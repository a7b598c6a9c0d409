//! The start of `bench FILE`: what it makes durable before it shows it, what it
//! takes, what it must leave alone and says then; and how deep a stack it asks for.

use rossinhiu_model::console::JOURNAL;
use rossinhiu_model::file::{steps, FileConsole};
use rossinhiu_model::generate::{opening_a, Rng, SETTINGS_A};
use rossinhiu_model::harness::*;
use rossinhiu_model::model::{bytes_of, Opening, Record, NEWEST_EDITION, RECORD};
use std::fs;
use std::os::unix::fs::{MetadataExt, PermissionsExt};
use std::os::unix::process::CommandExt;
use std::path::Path;
use std::process::Command;

rossinhiu_model::of_both! {
    a_start_is_durable_before_it_is_shown,
    a_start_that_cannot_be_made_durable,
    a_folder_is_left_alone,
    a_file_that_may_not_be_written_is_left_alone,
    a_file_that_is_too_long_is_left_alone,
    a_full_journal_restores,
    the_mode_of_a_stored_opening,
    a_bad_record_is_left_alone,
    a_file_that_is_no_journal_is_left_alone,
    what_cannot_be_made_read_or_named,
    a_closed_standard_descriptor,
    a_small_stack,
}

fn one_opening() -> Vec<u8> {
    let opening = Opening {
        ratio: 4,
        ranks: 1,
        mode: 0,
        client: 7,
        gaps: SETTINGS_A,
        edition: NEWEST_EDITION,
    };
    bytes_of(&Record::Opening(opening), 0).to_vec()
}

/// A journal of so many lines.
fn played(seed: u64, count: usize) -> Vec<u8> {
    let mut model = FileConsole::over(b"");
    steps(&mut Rng::new(seed), &mut model, count);
    model.file
}

// What is shown is durable.

/// The calls of a start up to its first line: the file is opened and read, then
/// it and its folder are made durable, each once, and only then the line is out.
fn assert_durable_start(calls: &[Call], name: &Path, folder: &str, line: &str) {
    let shown = calls.iter().position(|c| c.name == "write" && c.fd == 1);
    let shown = shown.expect("a first line");
    assert_eq!(calls[shown].bytes, format!("{line}\n").into_bytes());
    let mut file = -1;
    let mut order = Vec::new();
    for call in &calls[..shown] {
        let about = format!("{call:?}");
        match call.name.as_str() {
            "open" if Path::new(&call.path) == name => file = call.fd,
            "open" => {
                assert_eq!(call.path.trim_end_matches('/'), folder, "{about}");
                order.push(("folder", call.fd));
            }
            "pread" => assert_eq!((call.fd, order.len()), (file, 0), "{about}"),
            "fdatasync" | "fsync" => {
                assert_eq!(call.result, 0, "{about}");
                order.push((call.name.as_str(), call.fd));
            }
            _ => panic!("{about}"),
        }
    }
    let held = order.get(1).map_or(-1, |o| o.1);
    let expected = [("fdatasync", file), ("folder", held), ("fsync", held)];
    assert_eq!(order, expected);
}

fn a_start_is_durable_before_it_is_shown(programs: &Programs) {
    let _turn = turn();
    let (bench, folder) = (programs.bench(), Folder::new());
    let held = folder.0.to_str().unwrap();
    let mut cut = played(seed(), 40);
    cut.truncate(cut.len() - 10);
    let bad = [one_opening(), vec![0; 100]].concat();
    let full = one_opening().repeat(JOURNAL / RECORD);
    let files = [
        ("new", None),
        ("empty", Some(vec![])),
        ("loose", Some(vec![1, 2, 3])),
        ("cut", Some(cut)),
        ("long", Some(played(seed(), 3_000))),
        ("full", Some(full)),
        ("bad", Some(bad)),
    ];
    for (name, bytes) in files {
        let (path, log) = (folder.at(name), folder.at(&format!("{name}.log")));
        if let Some(bytes) = &bytes {
            fs::write(&path, bytes).unwrap();
        }
        let line = match name {
            "bad" => "restore 11 1",
            _ => "restore 0 0",
        };
        let ran = run(&mut shimmed(&bench, &[&path], &log, ""), b"");
        ran.ended_by_itself();
        assert_eq!(ran.text(), format!("{line}\n"), "{name}");
        assert_durable_start(&calls(&log), &path, held, line);
        assert_file(&path, &bytes.unwrap_or_default(), name);
    }
    // A name without a folder stands in the folder where the program was started.
    let (name, log) = (Path::new("plain"), folder.at("plain.log"));
    let mut here = shimmed(&bench, &[name], &log, "");
    run(here.current_dir(&folder.0), b"").ended_by_itself();
    assert_durable_start(&calls(&log), name, ".", "restore 0 0");
}

/// A sync of the start that fails: nothing is shown or played, and the file is as it was.
fn a_start_that_cannot_be_made_durable(programs: &Programs) {
    let _turn = turn();
    let (bench, folder) = (programs.bench(), Folder::new());
    let (path, log) = (folder.at("journal"), folder.at("log"));
    let bad = vec![0; 100];
    for bytes in [vec![], vec![0; 3], played(seed(), 300), bad] {
        for (plan, reason) in [
            ("fdatasync 1 errno 5", "Input/output error"),
            ("fsync 1 errno 5", "Input/output error"),
            ("open 2 errno 13", "Permission denied"),
        ] {
            fs::write(&path, &bytes).unwrap();
            let words = ["can't be made durable", reason];
            let mut failing = shimmed(&bench, &[&path], &log, plan);
            assert_left_alone(&mut failing, &path, "", &words);
        }
    }
    // A new file: it was made, and stays empty.
    for (i, plan) in ["fdatasync 1 errno 5", "fsync 1 errno 5"]
        .iter()
        .enumerate()
    {
        let new = folder.at(&format!("new{i}"));
        let ran = run(&mut shimmed(&bench, &[&new], &log, plan), b"status\n");
        assert_eq!(ran.text(), "", "{plan}");
        ran.told(&["can't be made durable"], plan);
        assert_file(&new, b"", plan);
    }
}

// Files to leave alone.

/// The program prints this and one line on standard error that holds these
/// words, and the file keeps every byte and its time.
fn assert_left_alone(command: &mut Command, path: &Path, out: &str, words: &[&str]) {
    let bytes = fs::read(path).ok();
    let before = fs::metadata(path).unwrap();
    let ran = run(command, format!("{}\nstatus\n", opening_a()).as_bytes());
    ran.ended_by_itself();
    assert_eq!(ran.text(), out);
    ran.told(words, "left alone");
    let after = fs::metadata(path).unwrap();
    assert_eq!(fs::read(path).ok(), bytes);
    let stamp = |m: &fs::Metadata| (m.ino(), m.len(), m.mtime(), m.mtime_nsec());
    assert_eq!(stamp(&before), stamp(&after));
}

fn a_folder_is_left_alone(programs: &Programs) {
    let _turn = turn();
    let folder = Folder::new();
    let path = folder.at("folder");
    fs::create_dir(&path).unwrap();
    fs::write(path.join("inside"), b"kept").unwrap();
    let words = ["can't be opened", "no folder", "Is a directory"];
    assert_left_alone(&mut command(&programs.bench(), &[&path]), &path, "", &words);
    assert_eq!(fs::read(path.join("inside")).unwrap(), b"kept");
}

fn a_file_that_may_not_be_written_is_left_alone(programs: &Programs) {
    let _turn = turn();
    let folder = Folder::new();
    fs::set_permissions(&folder.0, fs::Permissions::from_mode(0o755)).unwrap();
    let path = folder.at("journal");
    fs::write(&path, one_opening()).unwrap();
    fs::set_permissions(&path, fs::Permissions::from_mode(0o444)).unwrap();
    // Root may write what nobody may, so the program runs as nobody, from where nobody reaches it.
    let mut program = programs.bench();
    let copy = folder.at(program.path.file_name().unwrap().to_str().unwrap());
    fs::copy(&program.path, &copy).unwrap();
    fs::set_permissions(&copy, fs::Permissions::from_mode(0o755)).unwrap();
    program.path = copy;
    let mut as_nobody = command(&program, &[&path]);
    let is_root = fs::metadata(&path).unwrap().uid() == 0;
    if is_root {
        as_nobody.uid(65534).gid(65534);
    }
    let can_start = !is_root || as_nobody.spawn().map(|mut c| c.wait()).is_ok();
    if can_start {
        let words = ["can't be opened", "may write", "Permission denied"];
        assert_left_alone(&mut as_nobody, &path, "", &words);
    } else {
        println!("nobody can't be had here: only the read-only file system is tried");
    }
    let log = folder.at("log");
    let mut read_only = shimmed(&programs.bench(), &[&path], &log, "open 1 errno 30");
    let words = ["can't be opened", "may write", "Read-only file system"];
    assert_left_alone(&mut read_only, &path, "", &words);
}

fn a_file_that_is_too_long_is_left_alone(programs: &Programs) {
    let _turn = turn();
    let folder = Folder::new();
    let path = folder.at("journal");
    let mut bytes = one_opening().repeat(JOURNAL / RECORD);
    bytes.push(0);
    fs::write(&path, &bytes).unwrap();
    let words = ["longer than 4194304 bytes", "another file"];
    assert_left_alone(&mut command(&programs.bench(), &[&path]), &path, "", &words);
}

/// Just as many bytes as the memory has: it restores, and there is no room.
fn a_full_journal_restores(programs: &Programs) {
    let _turn = turn();
    let folder = Folder::new();
    let path = folder.at("journal");
    let bytes = one_opening().repeat(JOURNAL / RECORD);
    fs::write(&path, &bytes).unwrap();
    let input = format!(
        "status\n{}\noffer ACT 0 0 0\nback\nask ACT 0 0\n",
        opening_a()
    );
    let ran = run(&mut command(&programs.bench(), &[&path]), input.as_bytes());
    let expected =
        "restore 0 0\nstatus 0 7 65535 0 0 0 65536\nopen 9\noffer 9 0 0 0\nback 8\nask 0 0 0 0\n";
    assert_eq!(ran.text(), expected);
    assert_eq!(ran.said(), "");
    assert_file(&path, &bytes, "a full journal");
    // The last record's place is still to be had.
    fs::write(&path, &bytes[..JOURNAL - 1]).unwrap();
    let ran = run(&mut command(&programs.bench(), &[&path]), input.as_bytes());
    let expected =
        "restore 0 0\nstatus 0 7 65534 0 0 0 65535\nopen 0\noffer 9 0 0 0\nback 8\nask 0 0 0 0\n";
    assert_eq!(ran.text(), expected);
    assert_eq!(ran.said(), "");
    assert_file(&path, &bytes, "the last place taken");
}

/// Request 2026-04: what stands in mode 1 goes on with groups of two, though nobody opens so any more.
fn the_mode_of_a_stored_opening(programs: &Programs) {
    let _turn = turn();
    let folder = Folder::new();
    let path = folder.at("journal");
    let refused = opening_a().replacen("4 1 0", "1 1 1", 1);
    let input =
        format!("offer ACT 0 0 10\noffer RD 0 0 28\nask RD 0 1\nask RD 0 2\nask RD 0 4\n{refused}\nback\nstatus\n");
    for (mode, asks) in [
        (0, Some(["36 5 0", "36 5 0", "36 5 0"])),
        (1, Some(["36 6 0", "34 7 0", "34 7 0"])),
        (2, Some(["36 6 0", "36 6 0", "34 7 0"])),
        (3, None),
        (255, None),
    ] {
        let mut file = one_opening();
        file[1] = 1;
        file[3] = mode;
        fs::write(&path, &file).unwrap();
        let ran = run(&mut command(&programs.bench(), &[&path]), input.as_bytes());
        let listed = run(
            &mut command(&programs.list(), &[]),
            &fs::read(&path).unwrap(),
        );
        let Some([two, four, far]) = asks else {
            assert_eq!(ran.text(), "restore 11 0\n", "{mode}");
            assert_eq!(listed.text(), "bad 0\n", "{mode}");
            continue;
        };
        let expected = format!(
            "restore 0 0\noffer 0 10 0 0\noffer 0 28 0 0\nask 0 {two}\nask 0 {four}\nask 0 {far}\nopen 10\nback 0\nstatus 0 7 0 1 1 10 4\n"
        );
        assert_eq!(ran.text(), expected, "{mode}");
        assert_eq!(
            listed.text(),
            "0 open 7\n1 ACT 0 0 10\n2 RD 0 0 28\n3 back\nend 4 0\n"
        );
    }
}

const LAST: &str = "It is the last, so most likely its write was under way";
const ZEROS: &str = "It and all behind it is 0, so most likely its write was under way";
const OTHERS: &str = "Other bytes follow it, so most likely the file was damaged";

/// What a person is told of a bad record: the likely case, and what to do in each. Cut as it says, the file restores.
fn assert_bad(bench: &Program, path: &Path, at: usize, likely: &str) {
    let out = format!("restore 11 {at}\n");
    let cut_to = RECORD * at;
    let named = format!("record {at} is bad");
    let held = format!("If you hold an answer 0 for record {at} or one behind it, keep the file");
    let cut = format!("it is safe to cut the file: keep a copy, cut it to {cut_to} bytes");
    let words = [named.as_str(), likely, &held, &cut];
    assert_left_alone(&mut command(bench, &[path]), path, &out, &words);
    let file = fs::OpenOptions::new().write(true).open(path).unwrap();
    file.set_len(cut_to as u64).unwrap();
    play_on(bench, path, &mut Rng::new(at as u64), 5, "after the cut");
}

fn a_bad_record_is_left_alone(programs: &Programs) {
    let _turn = turn();
    let (bench, folder) = (programs.bench(), Folder::new());
    let path = folder.at("journal");
    let good = played(seed() + 7, 60);
    let last = good.len() / RECORD - 1;
    let assert_likely = |bytes: &[u8], at: usize, likely: &str| {
        fs::write(&path, bytes).unwrap();
        assert_bad(&bench, &path, at, likely);
    };
    for at in [0, 1, last / 2, last - 1, last] {
        let mut spoilt = good.clone();
        spoilt[RECORD * at + 63] ^= 1;
        let likely = if at == last { LAST } else { OTHERS };
        assert_likely(&spoilt, at, likely);
        for loose in [vec![0], vec![0; 5], vec![7; 63]] {
            assert_likely(&[spoilt.clone(), loose].concat(), at, OTHERS);
        }
        // Zeros, as a length that grew before its bytes came leaves them.
        let front = &good[..RECORD * at];
        assert_likely(&[front, &[0; 64]].concat(), at, LAST);
        for count in [65, 128, 4096] {
            assert_likely(&[front, &vec![0; count]].concat(), at, ZEROS);
            assert_likely(&[front, &vec![0; count], &[7]].concat(), at, OTHERS);
        }
    }
}

/// A file without a whole record: it is taken if it begins as an opening does, or with the zeros of a lost write.
fn a_file_that_is_no_journal_is_left_alone(programs: &Programs) {
    let _turn = turn();
    let (bench, folder) = (programs.bench(), Folder::new());
    let path = folder.at("journal");
    let text = b"Dear laboratory,\nthis is a letter, and no journal of a bench.\n\n";
    let mut rng = Rng::new(seed() + 9);
    for length in 1..RECORD {
        let mut bytes = text[..length].to_vec();
        if length % 2 == 0 {
            bytes[0] = rng.between(2, 255) as u8;
        }
        fs::write(&path, &bytes).unwrap();
        let words = ["no journal", "another file"];
        assert_left_alone(&mut command(&bench, &[&path]), &path, "", &words);
        bytes[0] = (length / 2 % 2) as u8;
        fs::write(&path, &bytes).unwrap();
        play_on(&bench, &path, &mut rng, 4, "loose bytes");
    }
    // A longer text is refused by its record 0, and is most likely no journal either.
    for text in [text.repeat(2)[..RECORD].to_vec(), text.repeat(40)] {
        fs::write(&path, text).unwrap();
        let words = ["begins as no journal does", "name another file"];
        assert_left_alone(
            &mut command(&bench, &[&path]),
            &path,
            "restore 11 0\n",
            &words,
        );
    }
}

fn what_cannot_be_made_read_or_named(programs: &Programs) {
    let _turn = turn();
    let (bench, folder) = (programs.bench(), Folder::new());
    let missing = folder.at("missing/journal");
    let ran = run(&mut command(&bench, &[&missing]), b"status\n");
    assert_eq!(ran.text(), "");
    assert!(ran.said().contains("can't be made"), "{}", ran.said());
    assert!(!folder.at("missing").exists());

    let (path, log) = (folder.at("journal"), folder.at("log"));
    fs::write(&path, one_opening()).unwrap();
    for plan in ["pread 1 errno 5", "pread 2 errno 5"] {
        let words = ["can't be read", "copy", "Input/output error"];
        let mut failing = shimmed(&bench, &[&path], &log, plan);
        assert_left_alone(&mut failing, &path, "", &words);
    }
    // A read that comes short is no end.
    let ran = run(
        &mut shimmed(&bench, &[&path], &log, "pread 1 short 10"),
        b"status\n",
    );
    assert_eq!(ran.text(), "restore 0 0\nstatus 0 7 0 0 0 0 1\n");
}

/// Where a standard descriptor is closed the file would take its number, and
/// answers would be written over records.
fn a_closed_standard_descriptor(programs: &Programs) {
    let _turn = turn();
    let (bench, folder) = (programs.bench(), Folder::new());
    let path = folder.at("journal");
    fs::write(&path, one_opening()).unwrap();
    for closed in ["<&-", ">&-", "2>&-", "<&- >&-", "<&- >&- 2>&-"] {
        let mut shell = command(Path::new("sh"), &[]);
        let line = format!("exec \"$0\" \"$@\" {closed}");
        shell.args(["-c", &line]).arg(&bench.path);
        shell.args(bench.words).arg(&path);
        let ran = run(&mut shell, format!("{}\nstatus\n", opening_a()).as_bytes());
        ran.ended_by_itself();
        assert_eq!(ran.text(), "", "{closed}");
        let told = ran.said().contains("Start with all three open");
        assert_eq!(told, !closed.contains("2>&-"), "{closed}: {}", ran.said());
        assert_file(&path, &one_opening(), closed);
    }
}

// The stack.

/// The journal of `bench` lies on the stack. Where that may not grow as far, the program says so; the system would end it without a
/// word. The tool's does not.
fn a_small_stack(programs: &Programs) {
    let _turn = turn();
    let (bench, folder) = (programs.bench(), Folder::new());
    let path = folder.at("journal");
    let input = format!("{}\nstatus\n", opening_a());
    for (kilobytes, name) in [1024, 4096, 6143, 8192]
        .into_iter()
        .flat_map(|k| [(k, None), (k, Some(&path))])
    {
        let _ = fs::remove_file(&path);
        let mut shell = command(Path::new("sh"), &[]);
        let line = format!("ulimit -s {kilobytes} && exec \"$0\" \"$@\"");
        shell.args(["-c", &line]).arg(&bench.path);
        shell.args(bench.words).args(name);
        let ran = run(&mut shell, input.as_bytes());
        ran.ended_by_itself();
        if kilobytes < 6144 && !programs.is_tool() {
            assert_eq!(ran.text(), "", "{kilobytes}");
            let words = ["stack", "6144", "type: ulimit -s 8192"];
            ran.told(&words, &format!("{kilobytes}"));
            assert!(!path.exists());
        } else {
            let start = if name.is_some() { "restore 0 0\n" } else { "" };
            let expected = format!("{start}open 0\nstatus 0 7 0 0 0 0 1\n");
            assert_eq!(ran.text(), expected);
            assert_eq!(ran.said(), "");
        }
    }
}
