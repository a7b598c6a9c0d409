//! What a person meets who types `rossinhiu`: pages, wrong arguments, the man page, completion, how far long work is.

use rossinhiu_model::harness::*;
use std::fs;
use std::io::Read;
use std::os::fd::{FromRawFd, OwnedFd};
use std::path::Path;
use std::process::Stdio;
use std::time::{Duration, Instant};

fn asked(words: &[&str]) -> Ran {
    let words: Vec<&Path> = words.iter().map(Path::new).collect();
    run(&mut command(&tool(&[]), &words), b"")
}

/// Each word with its options.
const WORDS: [(&str, &[&str]); 3] = [
    ("bench", &["--records", "--refusals"]),
    ("list", &["--client", "--last"]),
    ("stretch", &["--client"]),
];

#[test]
fn every_word_has_its_page() {
    let _turn = turn();
    let all = asked(&["--help"]);
    assert_eq!((all.status.code(), all.said().as_str()), (Some(0), ""));
    for number in ["0  everything", "1  something", "2  wrong", "3  a file"] {
        assert!(all.text().contains(number), "{number}");
    }
    for (word, options) in WORDS {
        assert!(all.text().contains(&format!("rossinhiu {word}")));
        let page = asked(&[word, "--help"]);
        assert_eq!((page.status.code(), page.said().as_str()), (Some(0), ""));
        assert!(page.text().starts_with(&format!("rossinhiu {word} ")));
        for option in options {
            assert!(page.text().contains(option), "{word} {option}");
        }
    }
}

/// The forms, the numbers and the gaps are those of the page of `bench`, and a listing's lines those of `list`.
#[test]
fn the_pages_say_what_those_of_bench_and_list_say() {
    let _turn = turn();
    let page = |program: Program, from: &str| -> String {
        let ran = run(&mut command(&program, &[Path::new("--help")]), b"");
        let page = ran.text();
        page[page.find(from).unwrap()..].to_string()
    };
    let rattle = Programs::RATTLE;
    for (one, other, from) in [
        (
            rattle.bench(),
            tool(&["bench"]),
            "Requests, and what is printed:",
        ),
        (rattle.list(), tool(&["list"]), "Lines, NUMBER being"),
    ] {
        assert_eq!(page(one, from), page(other, from));
    }
}

/// Words that are wrong, FILE standing for a file, and what is said of them.
const WRONG: [(&str, &str); 19] = [
    ("", "expected bench, list or stretch"),
    ("benhc", "not 'benhc'"),
    ("FILE", "expected bench, list or stretch"),
    ("bench FILE FILE", "2 files were named"),
    ("bench FILE --record 5", "'--record' is no option"),
    ("bench FILE -x", "behind --"),
    ("bench FILE --records", "--records wants a number"),
    ("bench FILE --records many", "not 'many'"),
    ("bench FILE --records -1", "not '-1'"),
    ("bench FILE --records=", "--records wants a number"),
    ("bench FILE --records 0", "1 to 16777216"),
    ("bench FILE --records 16777217", "1 to 16777216"),
    (
        "bench FILE --records 99999999999999999999",
        "wants a number",
    ),
    ("bench FILE --refusals=1", "is no option"),
    ("bench FILE --client 1", "is no option"),
    ("list FILE --client 4294967296", "at most 4294967295"),
    ("list FILE --records 3", "is no option"),
    ("stretch FILE", "--client and the client's number"),
    ("stretch --client 7", "file is missing"),
];

/// What is wrong, and where to read what is expected; nothing is played or made.
#[test]
fn wrong_arguments() {
    let _turn = turn();
    let folder = Folder::new();
    let path = folder.at("journal");
    let file = path.to_str().unwrap();
    for (typed, said) in WRONG {
        let words: Vec<&str> = typed
            .split_whitespace()
            .map(|word| if word == "FILE" { file } else { word })
            .collect();
        let ran = asked(&words);
        assert_eq!(
            (ran.text().as_str(), ran.status.code()),
            ("", Some(2)),
            "{typed}"
        );
        ran.told(&[said, "--help' says what"], typed);
        assert!(!path.exists(), "{typed}");
    }
}

/// The man page has every word, option and exit number, and names no other option.
#[test]
fn the_man_page() {
    let page = fs::read_to_string(top().join("docs/rossinhiu.1")).unwrap();
    assert!(page.starts_with(".TH ROSSINHIU 1"));
    let plain = page.replace("\\-", "-");
    let mut known: Vec<&str> = vec!["--help", "--"];
    for (word, options) in WORDS {
        assert!(plain.contains(&format!(".B rossinhiu {word}")), "{word}");
        known.extend(options);
    }
    for option in &known {
        assert!(plain.contains(option), "{option}");
    }
    let words = plain.split(|c: char| !c.is_ascii_alphanumeric() && c != '-');
    for word in words.filter(|w| w.starts_with("--")) {
        assert!(known.contains(&word), "{word}");
    }
    for section in ["NAME", "SYNOPSIS", "EXIT STATUS", "EXAMPLES", "SEE ALSO"] {
        assert!(
            plain.contains(&format!(".SH {section}"))
                || plain.contains(&format!(".SH \"{section}\"")),
            "{section}"
        );
    }
}

/// What bash completes behind these words, the last of them begun.
fn completed(folder: &Folder, words: &[&str]) -> Vec<String> {
    let script = top().join("host/tool/rossinhiu.bash");
    let line = format!(
        "source '{}'; COMP_WORDS=({}); COMP_CWORD={}; _rossinhiu; printf '%s\\n' \"${{COMPREPLY[@]}}\"",
        script.display(),
        words.iter().map(|w| format!("'{w}'")).collect::<Vec<_>>().join(" "),
        words.len() - 1
    );
    let mut bash = command(Path::new("bash"), &[]);
    bash.args(["--norc", "-c", &line]).current_dir(&folder.0);
    let ran = run(&mut bash, b"");
    assert_eq!(ran.said(), "", "{words:?}");
    let mut found: Vec<String> = ran
        .text()
        .lines()
        .filter(|l| !l.is_empty())
        .map(str::to_string)
        .collect();
    found.sort();
    found
}

#[test]
fn bash_completes() {
    let _turn = turn();
    let folder = Folder::new();
    for file in ["day.journal", "other.journal"] {
        fs::write(folder.at(file), b"").unwrap();
    }
    let both = ["day.journal", "other.journal"];
    for (words, expected) in [
        (
            vec!["rossinhiu", ""],
            vec!["--help", "bench", "list", "stretch"],
        ),
        (vec!["rossinhiu", "l"], vec!["list"]),
        (
            vec!["rossinhiu", "bench", "--r"],
            vec!["--records", "--refusals"],
        ),
        (
            vec!["rossinhiu", "bench", "--"],
            vec!["--help", "--records", "--refusals"],
        ),
        (vec!["rossinhiu", "bench", ""], both.to_vec()),
        (vec!["rossinhiu", "bench", "d"], vec!["day.journal"]),
        (vec!["rossinhiu", "bench", "--records", ""], vec![]),
        (
            vec!["rossinhiu", "list", "--"],
            vec!["--client", "--help", "--last"],
        ),
        (vec!["rossinhiu", "list", "--client", ""], vec![]),
        (vec!["rossinhiu", "stretch", "--c"], vec!["--client"]),
        (vec!["rossinhiu", "stretch", "o"], vec!["other.journal"]),
    ] {
        assert_eq!(completed(&folder, &words), expected, "{words:?}");
    }
}

// A terminal.

extern "C" {
    fn openpty(
        master: *mut i32,
        slave: *mut i32,
        name: *mut i8,
        form: *const u8,
        size: *const u8,
    ) -> i32;
}

/// The two ends of a terminal.
fn terminal() -> (fs::File, OwnedFd) {
    let (mut master, mut slave) = (-1, -1);
    let none = std::ptr::null();
    // SAFETY: two numbers are written to; the descriptors are new, and nobody else's.
    unsafe {
        assert_eq!(
            openpty(&mut master, &mut slave, std::ptr::null_mut(), none, none),
            0
        );
        (fs::File::from_raw_fd(master), OwnedFd::from_raw_fd(slave))
    }
}

/// A trace that plays for longer than a second and a half here, whatever the machine, and its size in MiB: what is done in half a second shows
/// nothing. In a file nothing is shown of how far it is.
fn long_trace(source: &Path) -> (usize, usize) {
    let line = "ask ACT 0 0\n";
    let mut lines = 600_000;
    loop {
        fs::write(source, line.repeat(lines)).unwrap();
        let begun = Instant::now();
        let quiet = run_over(&mut command(&tool(&["bench"]), &[]), source);
        assert_eq!(quiet.said(), "");
        if begun.elapsed() > Duration::from_millis(1500) {
            return (lines, lines * line.len() >> 20);
        }
        lines *= 2;
    }
}

/// A long trace from a file, with standard error on a terminal: how far it is, wiped off before the summary.
#[test]
fn long_work_shows_how_far_it_is() {
    let _turn = turn();
    let folder = Folder::new();
    let source = folder.at("trace");
    let (lines, size) = long_trace(&source);
    let input = || fs::File::open(&source).unwrap();
    let (mut shown, line) = terminal();
    let mut child = spawn(
        command(&tool(&["bench"]), &[])
            .stdin(input())
            .stdout(Stdio::null())
            .stderr(line),
    );
    let mut said = Vec::new();
    // A terminal whose other end is closed fails to be read.
    let _ = shown.read_to_end(&mut said);
    assert_eq!(child.wait().unwrap().code(), Some(1));
    let said = String::from_utf8_lossy(&said);
    let (far, rest) = said.split_at(said.find("summary: ").unwrap_or_else(|| panic!("{said}")));
    assert!(
        far.contains("playing the trace: ") && far.contains(&format!(" % of {size} MiB")),
        "{far}"
    );
    assert!(
        far.ends_with("\r\x1b[K") && rest.contains(&format!("{lines} lines")),
        "{said}"
    );
}
