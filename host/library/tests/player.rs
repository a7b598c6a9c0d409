//! examples/player.c and the player in Rust: played, their disk cut anywhere, each of their calls failing, and their journals held
//! against the model. And the header: in C and in C++, its sizes and offsets are the library's.

use rossinhiu::bench::{Bench, Journal, Kind, Settings};
use rossinhiu::ffi;
use rossinhiu_model::burst_calls::{any_burst, Checker, Model, WIDEST_IN_BYTES};
use rossinhiu_model::disk::{Disk, Told};
use rossinhiu_model::generate::{Rng, SETTINGS_A};
use rossinhiu_model::harness::*;
use rossinhiu_model::model::{Answer, BurstAnswer, Command as Offer, State, NAMES, RECORD};
use rossinhiu_model::sheet::SheetAnswer;
use rossinhiu_model::sheet_calls::any_sheet;
use std::collections::BTreeSet;
use std::fs;
use std::mem::{offset_of, size_of};
use std::path::{Path, PathBuf};
use std::process::{Command, Output};

const FLAGS: [&str; 7] = [
    "-Wall",
    "-Wextra",
    "-Wpedantic",
    "-Wshadow",
    "-Wconversion",
    "-Werror",
    "-O2",
];

/// Builds a program over a header and the archive; what the compiler and the linker said.
fn compiled(mut with: Command, header: &Path, source: &Path, program: &Path) -> Output {
    with.args(FLAGS)
        .arg("-I")
        .arg(header)
        .arg(source)
        .arg(top().join("crates/capi/out/libcapi.a"))
        .arg("-o")
        .arg(program)
        .output()
        .expect("the compiler runs")
}

/// Builds a C program over the header and the archive.
fn built(folder: &Folder, name: &str, source: &Path) -> PathBuf {
    let program = folder.at(name);
    let mut with = gcc();
    with.arg("-std=c11");
    let done = compiled(with, &top().join("include"), source, &program);
    let said = String::from_utf8_lossy(&done.stderr);
    assert!(done.status.success(), "{}: {said}", source.display());
    program
}

/// examples/player.c, and the player in Rust, which cargo builds beside this test.
fn players(folder: &Folder) -> [PathBuf; 2] {
    let test = std::env::current_exe().expect("this test's own path");
    let beside = test.parent().and_then(Path::parent);
    let rust = beside.expect("its folder").join("examples/player");
    assert!(
        rust.is_file(),
        "{}: `cargo test` builds it, with no name of a test behind it",
        rust.display()
    );
    [
        built(folder, "player", &top().join("examples/player.c")),
        rust,
    ]
}

fn play(player: &Path, journal: &Path, room: usize, trace: &str) -> Ran {
    let room = room.to_string();
    run(
        &mut command(player, &[journal, Path::new(&room)]),
        trace.as_bytes(),
    )
}

/// The player's answers to a trace, and the state, by the model.
fn by_model(state: &mut State, room: usize, trace: &str) -> String {
    let mut lent = state.journal();
    lent.resize(room.max(state.records.len()) * RECORD, 0);
    let mut said = format!("restored {} records\n", state.records.len());
    for line in trace.lines() {
        let words: Vec<&str> = line.split(' ').collect();
        let number = |i: usize| words[i].parse::<u64>().expect("a number");
        match words[0] {
            "open" => {
                let gaps = std::array::from_fn(|i| number(5 + i) as u16);
                let given = (number(1), number(2), number(3));
                let answer = state.open(&mut lent, given, number(4) as u32, gaps);
                said += &format!("open {answer}\n");
            }
            "offer" => {
                let kind = NAMES.iter().position(|name| *name == words[1]);
                let kind = kind.map_or(0, |i| i as u64 + 1);
                let (rank, bank, cycle) = (number(2), number(3), number(4));
                let command = Offer {
                    kind,
                    rank,
                    bank,
                    cycle,
                };
                let answer = state.offer(&mut lent, command);
                said += &match answer.number {
                    0 => format!("play {} {rank} {bank} {cycle}\n", words[1]),
                    n => format!(
                        "offer {n} {} {} {}\n",
                        answer.cycle, answer.gap, answer.loss
                    ),
                };
            }
            "back" => said += &format!("back {}\n", state.back(&mut lent)),
            _ => {}
        }
    }
    let s = state.status();
    let numbers = [
        s.opening as u64,
        s.survivors as u64,
        s.depth,
        s.last,
        s.records as u64,
    ];
    let numbers: Vec<String> = numbers.iter().map(u64::to_string).collect();
    said += &format!("status {} {} {}\n", s.number, s.client, numbers.join(" "));
    let stretch = state.stretch(&lent);
    let start = if stretch.is_empty() {
        0
    } else {
        RECORD * s.opening
    };
    said + &format!("stretch {start} {}\n", stretch.len())
}

fn first_trace() -> String {
    fs::read_to_string(top().join("examples/player.trace")).expect("the example's trace")
}

/// Another client, with other timings.
const SECOND: &str = "open 4 2 2 9 60 8 21 42 8 8 4 20 8 24 26 18 34 18 21 4 280 140 90 32
offer ACT 0 3 100
offer ACT 1 16 101
offer RD 1 3 101
offer RD 0 3 105
offer NOP 0 3 200
back
back
offer WR 0 3 300
";

#[test]
fn plays_and_restores_wherever_the_disc_was_cut() {
    let folder = Folder::new();
    let journal = folder.at("journal");
    for (player, step) in players(&folder).iter().zip([1, 7]) {
        let _ = fs::remove_file(&journal);
        let mut state = State::fresh();
        for trace in [first_trace(), SECOND.to_string()] {
            let done = play(player, &journal, 12, &trace);
            assert!(done.status.success());
            assert_eq!(done.text(), by_model(&mut state, 12, &trace));
            assert!(fs::read(&journal).unwrap() == state.journal());
        }
        let whole = state.journal();
        for cut in (0..=whole.len()).step_by(step) {
            fs::write(&journal, &whole[..cut]).unwrap();
            let (number, _, mut state) = State::restore(&whole[..cut]);
            assert_eq!(number, 0);
            // Another client goes on behind the cut: nothing of the old records may be left behind its own.
            let trace = if cut % 2 == 0 { SECOND } else { "" };
            let done = play(player, &journal, 12, trace);
            let due = by_model(&mut state, 12, trace);
            assert_eq!(done.text(), due, "cut at {cut}");
            // Bytes left over stay until a record takes their place.
            let written = state.journal();
            let kept = if trace.is_empty() {
                &whole[..cut]
            } else {
                &written
            };
            assert!(fs::read(&journal).unwrap() == kept, "cut at {cut}");
        }
    }
}

/// A journal that is refused, and a file that is none, keep every byte.
#[test]
fn what_is_not_played_on_is_left_alone() {
    let folder = Folder::new();
    let journal = folder.at("journal");
    for player in players(&folder) {
        let _ = fs::remove_file(&journal);
        assert!(play(&player, &journal, 100, &first_trace())
            .status
            .success());
        let mut bad = fs::read(&journal).unwrap();
        bad[2 * RECORD + 8] ^= 1;
        for (bytes, out) in [
            (bad.as_slice(), "restore 11 2\n"),
            (b"a note, no journal\n", ""),
        ] {
            fs::write(&journal, bytes).unwrap();
            let done = play(&player, &journal, 100, SECOND);
            assert_eq!(done.status.code(), Some(1));
            assert_eq!(done.text(), out);
            assert_eq!(done.said().lines().count(), 1, "{}", done.said());
            assert!(fs::read(&journal).unwrap() == bytes);
        }
    }
}

#[test]
fn a_line_that_is_no_request_ends_the_play() {
    let folder = Folder::new();
    let wide = first_trace().replace(" 32\n", " 65536\n");
    let short = first_trace().replace(" 32\n", "\n");
    let cut = first_trace().split_once('\n').unwrap().0.to_string();
    let cut = cut[..cut.len() - 1].to_string();
    let traces = [
        &wide,
        &short,
        &cut,
        "offer ACT 0 3\n",
        "offer ACT 0 3 -1\n",
        "status\n",
        "back",
    ];
    for player in players(&folder) {
        for trace in traces {
            let journal = folder.at("journal");
            let done = play(&player, &journal, 100, trace);
            assert_eq!(done.status.code(), Some(1), "{trace}");
            assert_eq!(done.text(), "restored 0 records\n?\n", "{trace}");
            assert_eq!(fs::metadata(&journal).unwrap().len(), 0);
        }
    }
}

/// A remark of 4,095 bytes, behind which a request would begin for a player that reads lines in pieces.
#[test]
fn a_long_line_is_one_line() {
    let folder = Folder::new();
    let opening = first_trace()
        .lines()
        .find(|l| l.starts_with("open"))
        .unwrap()
        .to_string();
    for (n, player) in players(&folder).iter().enumerate() {
        for size in [4094, 4095, 4096, 8190] {
            let journal = folder.at(&format!("{n}-{size}"));
            let trace = format!("#{}back\n#{0}{opening}\n", "x".repeat(size - 1));
            let done = play(player, &journal, 100, &trace);
            assert!(done.status.success());
            assert_eq!(
                done.text(),
                by_model(&mut State::fresh(), 100, ""),
                "{size}"
            );
        }
    }
}

/// A trace that can't be read, as a folder can't, is not at its end.
#[test]
fn a_trace_that_cannot_be_read() {
    let folder = Folder::new();
    let journal = folder.at("journal");
    for player in players(&folder) {
        let mut command = command(&player, &[&journal, Path::new("100")]);
        command.stdin(fs::File::open(&folder.0).unwrap());
        let done = command.output().unwrap();
        assert_eq!(done.status.code(), Some(1));
        assert_eq!(done.stdout, b"restored 0 records\n");
        let said = String::from_utf8_lossy(&done.stderr);
        assert!(said.contains("Is a directory"), "{said}");
    }
}

// The order of calls.

/// Accepted requests among what was printed.
fn accepted(out: &[u8]) -> usize {
    let text = String::from_utf8_lossy(out);
    let is_accepted = |l: &&str| l.starts_with("play ") || *l == "open 0" || *l == "back 0";
    text.lines().filter(is_accepted).count()
}

/// Before anything is told the file and its folder are durable; before each answer its record was written whole and made durable.
fn assert_order(calls: &[Call], path: &Path, records: usize) -> Vec<u8> {
    let folder = path.parent().unwrap().to_str().unwrap();
    let (mut file, mut at) = (-1, -1);
    let (mut out, mut written, mut durable) = (Vec::new(), records, None);
    let mut is_named = false;
    for call in calls {
        let about = format!("{call:?}");
        match call.name.as_str() {
            "open" if call.path == path.to_str().unwrap() => file = call.fd,
            "open" if call.path == folder => at = call.fd,
            "pwrite" if call.fd == file => {
                assert_eq!(
                    (call.offset, call.count),
                    (RECORD as i64 * written as i64, 64),
                    "{about}"
                );
                written += usize::from(call.result == 64);
            }
            "fdatasync" | "fsync" if call.fd == file && call.result == 0 => durable = Some(written),
            "fsync" if call.fd == at && call.result == 0 => is_named = true,
            "write" if call.fd == 1 => {
                out.extend_from_slice(&call.bytes);
                assert!(is_named, "told before its name was durable: {about}");
                let durable = durable.expect("told before the file was durable");
                assert!(
                    records + accepted(&out) <= durable,
                    "answered before durable: {about}"
                );
            }
            "ftruncate" => panic!("{about}"),
            _ => {}
        }
    }
    out
}

#[test]
fn each_record_is_durable_before_the_player_acts() {
    let folder = Folder::new();
    let (journal, log) = (folder.at("journal"), folder.at("log"));
    for player in players(&folder) {
        let _ = fs::remove_file(&journal);
        let mut state = State::fresh();
        for trace in [first_trace(), SECOND.to_string(), String::new()] {
            let _ = fs::remove_file(&log);
            let records = state.records.len();
            let words = [journal.as_path(), Path::new("100")];
            let done = run(&mut shimmed(&player, &words, &log, ""), trace.as_bytes());
            assert!(done.status.success(), "{}", done.said());
            let told = assert_order(&calls(&log), &journal, records);
            assert_eq!(told, by_model(&mut state, 100, &trace).into_bytes());
        }
    }
}

/// Each call on the file failing, in its turn: the player ends with 1, says what failed, and has acted on nothing that is not durable.
#[test]
fn each_call_failing() {
    let folder = Folder::new();
    let (journal, log) = (folder.at("journal"), folder.at("log"));
    for player in players(&folder) {
        for (call, turns, said) in [
            ("pwrite", 1..=6, "writing a record"),
            ("fdatasync", 1..=7, "syncing the journal"),
            ("fsync", 1..=1, "folder"),
            ("open", 1..=1, "journal"),
        ] {
            for turn in turns {
                let _ = fs::remove_file(&journal);
                let _ = fs::remove_file(&log);
                let plan = format!("{call} {turn} errno 5");
                let words = [journal.as_path(), Path::new("100")];
                let done = run(
                    &mut shimmed(&player, &words, &log, &plan),
                    first_trace().as_bytes(),
                );
                assert_eq!(done.status.code(), Some(1), "{plan}: {}", done.said());
                assert!(done.said().contains(said), "{plan}: {}", done.said());
                let before = if call == "pwrite" { turn } else { turn - 1 };
                let told = assert_order(&calls(&log), &journal, 0);
                assert!(accepted(&told) < before.max(1), "{plan}");
            }
        }
    }
}

// A burst through the library.

/// Names the journal to the test that plays itself.
const BURST_JOURNAL: &str = "ROSSINHIU_BURST_JOURNAL";

/// An opening, and behind it twenty commands: records 1 to 20 lie in three sectors.
fn play_burst(journal: &Path) {
    let settings = Settings {
        ratio: 4,
        ranks: 1,
        mode: 0,
        client: 7,
        gaps: [0; 20],
    };
    let journal = Journal::at(journal, 100).expect("a journal");
    let mut bench = Bench::restore(journal).expect("a bench");
    bench.open(&settings).expect("an opening");
    let command = |n| rossinhiu::bench::Command::new(Kind::Prepb, 0, n % 16, n);
    let list: Vec<_> = (0..20).map(command).collect();
    match bench.offer_all(&list) {
        Ok(burst) => println!("told {}", burst.accepted),
        Err(failed) => println!("failed {:?}", failed.step),
    }
}

/// The calls of such a play on its journal, each with its place and size, and what it then says; and what the file holds.
fn burst_played(plan: &str) -> (Vec<(String, i64, i64)>, Vec<u8>) {
    let folder = Folder::new();
    let (journal, log) = (folder.at("journal"), folder.at("log"));
    let this = std::env::current_exe().expect("this test's own path");
    let words = ["--exact", THE_BURST, "--nocapture"].map(Path::new);
    let mut played = shimmed(&this, &words, &log, plan);
    let done = run(played.env(BURST_JOURNAL, &journal), b"");
    assert!(done.status.success(), "{plan}: {}", done.said());
    let (mut file, mut seen) = (-1, Vec::new());
    for call in calls(&log) {
        let text = String::from_utf8_lossy(&call.bytes).into_owned();
        match call.name.as_str() {
            "open" if Path::new(&call.path) == journal => file = call.fd,
            "pwrite" | "fdatasync" if call.fd == file => {
                seen.push((call.name, call.offset, call.count))
            }
            "write" if text.contains("told ") || text.contains("failed ") => {
                seen.push((text.trim().to_string(), 0, 0))
            }
            _ => {}
        }
    }
    (seen, fs::read(&journal).unwrap())
}

const THE_BURST: &str = "a_burst_goes_to_the_disk_sector_by_sector";

/// Each sector's records in one write, and durable before the next are written; all of them before the call returns. Where a write or
/// a sync fails, nothing more is written.
#[test]
fn a_burst_goes_to_the_disk_sector_by_sector() {
    if let Some(journal) = std::env::var_os(BURST_JOURNAL) {
        return play_burst(Path::new(&journal));
    }
    let (whole, file) = burst_played("");
    let mut due = vec![("fdatasync".to_string(), 0, 0)];
    for (at, count) in [(0, 64), (64, 448), (512, 512), (1024, 320)] {
        due.push(("pwrite".to_string(), at, count));
        due.push(("fdatasync".to_string(), 0, 0));
    }
    due.push(("told 20".to_string(), 0, 0));
    assert_eq!(whole, due);
    assert_eq!(State::restore(&file).2.records.len(), 21);
    // The start syncs once; then come a write and its sync in turn, the opening's first.
    for (turn, end) in [(2, 64), (3, 512), (4, 1024)] {
        let (mut came, kept) = burst_played(&format!("pwrite {turn} errno 5"));
        assert_eq!(came.pop().unwrap().0, "failed Write");
        assert_eq!(came, whole[..2 * turn]);
        assert!(kept == file[..end], "turn {turn}");
    }
    for (turn, end) in [(3, 512), (4, 1024), (5, 1344)] {
        let (mut came, kept) = burst_played(&format!("fdatasync {turn} errno 5"));
        assert_eq!(came.pop().unwrap().0, "failed Sync");
        assert_eq!(came, whole[..2 * turn - 1]);
        assert!(kept == file[..end], "turn {turn}");
    }
}

// The header.

/// A program that hands in NULL wherever that may be handed in.
const NULLS: &str = r#"
#include "rossinhiu.h"
#include <stdio.h>
int main(void) {
    struct rossinhiu_session fresh = rossinhiu_fresh();
    struct rossinhiu_gaps gaps = {{0}};
    uint8_t one[64] = {0}, lines[128];
    struct rossinhiu_opened s = rossinhiu_open(fresh, one, sizeof one, 1, 1, 0, 7, gaps);
    struct rossinhiu_listed empty = rossinhiu_list_part(fresh, NULL, 0, 1, lines, sizeof lines);
    struct rossinhiu_listed nowhere = rossinhiu_list_part(fresh, one, sizeof one, 1, NULL, 0);
    static uint64_t numbers[ROSSINHIU_NUMBERS];
    struct rossinhiu_given given = {64, 1, 1};
    struct rossinhiu_played blank = rossinhiu_console(fresh, NULL, 0, NULL, 0, given, numbers, NULL, 0);
    struct rossinhiu_played played = rossinhiu_console(s.session, one, sizeof one, (const uint8_t *)"back", 4, given, numbers, lines + 64, 64);
    printf("%d %.*s ", (int)blank.written, (int)played.written, (const char *)lines + 64);
    printf("%d %d", (int)rossinhiu_open(s.session, NULL, 0, 1, 1, 0, 7, gaps).number, (int)s.number);
    printf(" %d", (int)rossinhiu_offer(s.session, NULL, 0, ROSSINHIU_ACT, 0, 0, 0).number);
    printf(" %d", (int)rossinhiu_take_back(fresh, NULL, 0).number);
    printf(" %d %d", (int)rossinhiu_restore(NULL, 0).number, (int)rossinhiu_status(s.session).client);
    struct rossinhiu_command act = {ROSSINHIU_ACT, 0, 0, 0};
    uint8_t piece[64] = {0, ROSSINHIU_ACT};
    printf(" %d", (int)rossinhiu_offer_all(fresh, NULL, 0, NULL, 0).number);
    printf(" %d", (int)rossinhiu_offer_all(s.session, NULL, 0, &act, 1).number);
    printf(" %d", (int)rossinhiu_offer_pieces(fresh, NULL, 0, NULL, 0).number);
    printf(" %d", (int)rossinhiu_offer_pieces(s.session, NULL, 0, piece, sizeof piece).number);
    printf(" %d %d %.*s", (int)empty.ended, (int)nowhere.written, (int)empty.written, (const char *)lines);
    return 0;
}
"#;

/// What a program prints, built as C11 and as C++17, each without a warning.
fn in_c_and_in_cpp(text: &str, input: &[u8]) -> [String; 2] {
    let folder = Folder::new();
    let header = top().join("include");
    let cpp = compiler("ROSSINHIU_CXX", "g++");
    let builds = [
        ("program.c", "-std=c11", gcc()),
        ("program.cpp", "-std=c++17", cpp),
    ];
    builds.map(|(name, standard, mut with)| {
        let (source, program) = (folder.at(name), folder.at("program"));
        fs::write(&source, text).unwrap();
        with.arg(standard);
        let done = compiled(with, &header, &source, &program);
        let said = String::from_utf8_lossy(&done.stderr);
        assert!(done.status.success() && said.is_empty(), "{name}: {said}");
        run(&mut command(&program, &[]), input).text()
    })
}

/// NULL where nothing is lent.
#[test]
fn the_header_in_c_and_in_cpp() {
    let due = "0 back 8 9 0 9 1 0 7 0 9 0 9 1 0 end 0 0\n";
    assert_eq!(in_c_and_in_cpp(NULLS, b""), [due, due]);
}

/// A program that reads data sheets as the console's lines, prints the console's answers, and opens with the gaps wherever there are any.
const SHEETS: &str = r#"
#include "rossinhiu.h"
#include <inttypes.h>
#include <stdio.h>
int main(void) {
    uint64_t tck;
    while (scanf(" gaps %" SCNu64, &tck) == 1) {
        struct rossinhiu_times times;
        for (int i = 0; i < 20; i++)
            if (scanf("%" SCNu64, &times.time[i]) != 1)
                return 1;
        struct rossinhiu_sheet sheet = rossinhiu_gaps(tck, times);
        printf("gaps %" PRIu64 " %" PRIu64, sheet.number, sheet.gap_number);
        for (int i = 0; i < 20; i++)
            printf(" %d", sheet.gaps.gap[i]);
        printf("\n");
        if (sheet.number == ROSSINHIU_BAD_TCK || sheet.number == ROSSINHIU_BAD_TIME)
            continue;
        uint8_t record[64] = {0};
        struct rossinhiu_opened s = rossinhiu_open(rossinhiu_fresh(), record, sizeof record, 4, 1, 0, 7, sheet.gaps);
        printf("open %" PRIu64 " ", s.number);
        for (int i = 0; i < 64; i++)
            printf("%02x", record[i]);
        printf("\n");
    }
    return 0;
}
"#;

/// What that program owes for a sheet that is answered so.
fn sheet_by_model(told: &SheetAnswer) -> String {
    if told.number != 0 {
        return format!("{told}\n");
    }
    let mut record = [0; RECORD];
    let opened = State::fresh().open(&mut record, (4, 1, 0), 7, told.gaps);
    let hex: String = record.iter().map(|b| format!("{b:02x}")).collect();
    format!("{told}\nopen {opened} {hex}\n")
}

/// 160 bytes of times by value, an answer of 56 bytes back, and its gaps in an opening.
#[test]
fn data_sheets_in_c_and_in_cpp() {
    let mut rng = Rng::new(seed());
    let (mut lines, mut due) = (String::new(), String::new());
    for _ in 0..5_000 {
        let sheet = any_sheet(&mut rng);
        lines += &format!("{sheet}\n");
        due += &sheet_by_model(&sheet.answer());
    }
    for came in in_c_and_in_cpp(SHEETS, lines.as_bytes()) {
        let mut pairs = came.lines().zip(due.lines());
        let other = pairs.find(|(came, due)| came != due);
        assert!(came == due, "{other:?}");
    }
    for number in ["0", "13", "14"] {
        assert!(due.contains(&format!("gaps {number} ")), "{number}");
    }
}

/// A program that reads lists, each with its form (0 structs, 1 pieces of bytes) and its length before it, and prints what each burst came
/// to. 2 stands for an opening; 3 ends a round: the journal's bytes, and all begins anew.
const BURSTS: &str = r#"
#include "rossinhiu.h"
#include <inttypes.h>
#include <stdio.h>
#include <stdlib.h>
#include <string.h>
enum { MOST = 200, ROOM = 150 * 64 + 5 };
static uint64_t number(void) {
    uint64_t given;
    if (scanf("%" SCNu64, &given) != 1)
        exit(1);
    return given;
}
/* A byte that is not to be read is none that could be right. */
static void lay(uint8_t *piece, struct rossinhiu_command one) {
    memset(piece, 0xee, 64);
    piece[1] = (uint8_t)one.kind;
    piece[2] = (uint8_t)one.rank;
    piece[3] = (uint8_t)one.bank;
    for (int i = 0; i < 8; i++)
        piece[8 + i] = (uint8_t)(one.cycle >> 8 * i);
}
int main(void) {
    static struct rossinhiu_command list[MOST];
    static uint8_t pieces[64 * MOST + 63], journal[ROOM];
    struct rossinhiu_session session = rossinhiu_fresh();
    struct rossinhiu_gaps gaps;
    for (int i = 0; i < 20; i++)
        gaps.gap[i] = (uint16_t)number();
    uint64_t form;
    while (scanf("%" SCNu64, &form) == 1) {
        if (form == 2) {
            session = rossinhiu_open(session, journal, sizeof journal, 4, 2, 2, 7, gaps).session;
        } else if (form == 3) {
            for (int i = 0; i < ROOM; i++)
                printf("%02x", journal[i]);
            printf("\n");
            memset(journal, 0, sizeof journal);
            session = rossinhiu_fresh();
        } else {
            size_t listed = (size_t)number();
            for (size_t i = 0; i < listed; i++) {
                struct rossinhiu_command *one = &list[i];
                one->kind = number();
                one->rank = number();
                one->bank = number();
                one->cycle = number();
                lay(pieces + 64 * i, *one);
            }
            struct rossinhiu_burst done = form == 0
                ? rossinhiu_offer_all(session, journal, sizeof journal, list, listed)
                : rossinhiu_offer_pieces(session, journal, sizeof journal, pieces, 64 * listed + listed % 64);
            printf("%" PRIu64 " %" PRIu64 " %" PRIu64 " %" PRIu64 " %d\n", done.count, done.number, done.cycle, done.gap, done.loss);
            session = done.session;
        }
    }
    return 0;
}
"#;

/// A round of that program: what it reads, and what it owes.
fn round_by_model(rng: &mut Rng, lines: &mut String, due: &mut String) {
    let mut model = Model::new(vec![0; 150 * RECORD + 5]);
    for turn in 0..12 {
        if turn == 1 {
            model.open((4, 2, 2), 7, SETTINGS_A);
            *lines += "2\n";
        }
        let form = rng.below(2);
        let widest = [u64::MAX, WIDEST_IN_BYTES][form as usize];
        let list = any_burst(rng, &model.state, 40, widest);
        *lines += &format!("{form} {}", list.len());
        for one in &list {
            let (kind, rank, bank, cycle) = (one.kind, one.rank, one.bank, one.cycle);
            *lines += &format!(" {kind} {rank} {bank} {cycle}");
        }
        *lines += "\n";
        let BurstAnswer { count, refusal } = model.burst(&list);
        let Answer {
            number,
            cycle,
            gap,
            loss,
        } = refusal;
        *due += &format!("{count} {number} {cycle} {gap} {loss}\n");
    }
    *lines += "3\n";
    let hex: String = model.journal.iter().map(|b| format!("{b:02x}")).collect();
    *due += &format!("{hex}\n");
}

/// Lists of structs and of bytes, with refusals in the middle: counts, refusals, and every byte of the journal.
#[test]
fn bursts_in_c_and_in_cpp() {
    let mut rng = Rng::new(seed());
    let gaps = SETTINGS_A.map(|gap| gap.to_string());
    let (mut lines, mut due) = (gaps.join(" ") + "\n", String::new());
    for _ in 0..100 {
        round_by_model(&mut rng, &mut lines, &mut due);
    }
    for came in in_c_and_in_cpp(BURSTS, lines.as_bytes()) {
        let mut pairs = came.lines().zip(due.lines());
        let other = pairs.find(|(came, due)| came != due);
        assert!(came == due, "{other:?}");
    }
    let middle: BTreeSet<&str> = due
        .lines()
        .filter(|line| line.contains(' ') && !line.starts_with("0 "))
        .map(|line| line.split(' ').nth(1).unwrap())
        .collect();
    let all = ["0", "12", "2", "3", "4", "5", "6", "7", "9"];
    assert_eq!(middle, BTreeSet::from(all));
    assert!(due.contains("\n0 1 0 0 0\n"), "no session");
}

/// A header of another layout does not link with the archive, whatever is called.
#[test]
fn another_layout_does_not_link() {
    let folder = Folder::new();
    let header = fs::read_to_string(top().join("include/rossinhiu.h")).unwrap();
    let number = format!("\"_{LAYOUT}\"");
    assert_eq!(header.matches(&number).count(), 1);
    let other = header.replace(&number, &format!("\"_{}\"", LAYOUT + 1));
    fs::write(folder.at("rossinhiu.h"), other).unwrap();
    let source = folder.at("fresh.c");
    let text =
        "#include <rossinhiu.h>\nint main(void) { return rossinhiu_fresh().terms.is_open; }\n";
    fs::write(&source, text).unwrap();
    let program = folder.at("fresh");
    let alike = compiled(gcc(), &top().join("include"), &source, &program);
    assert!(alike.status.success());
    let done = compiled(gcc(), &folder.0, &source, &program);
    let said = String::from_utf8_lossy(&done.stderr);
    assert!(
        !done.status.success() && said.contains("undefined reference"),
        "{said}"
    );
}

/// The number of the layout, and what it stands for: where sizes or offsets change, the next number goes into the header, the exported
/// names and their names in Rust, and both are written here anew. A struct that is added changes the fingerprint alone: the others are
/// where they were.
const LAYOUT: u64 = 5;
const FINGERPRINT: u64 = 1_679_713_154_068_950_443;

fn fingerprint(text: &str) -> u64 {
    let step = |hash: u64, byte: u8| (hash ^ u64::from(byte)).wrapping_mul(0x100_0000_01b3);
    text.bytes().fold(0xcbf2_9ce4_8422_2325, step)
}

/// Size, and the offset of each field, in C's words and in Rust's.
macro_rules! layout {
    ($all:ident, $($c:literal $rust:ty { $($field:ident),* })*) => {
        $(
            $all.push((format!("sizeof(struct {})", $c), size_of::<$rust>()));
            $($all.push((
                format!("offsetof(struct {}, {})", $c, stringify!($field)),
                offset_of!($rust, $field),
            ));)*
        )*
    };
}

/// The Rust side is held to the library by tests/library.rs; here the header is held to the Rust side.
#[test]
fn the_headers_layout() {
    let mut all: Vec<(String, usize)> = Vec::new();
    layout!(all,
        "rossinhiu_entry" ffi::Entry { slot, open_banks, earlier, pushed_out, latest }
        "rossinhiu_opening" ffi::Opening { ratio, ranks, mode, edition, client }
        "rossinhiu_progress" ffi::Progress { activates, latest, position, survivors, depth, records, open_banks }
        "rossinhiu_terms" ffi::Terms { rounded, gaps, opening, number, is_open }
        "rossinhiu_session" ffi::Session { last, entries, progress, terms }
        "rossinhiu_gaps" ffi::Gaps { gap }
        "rossinhiu_times" ffi::Times { time }
        "rossinhiu_sheet" ffi::Sheet { number, gap_number, gaps }
        "rossinhiu_opened" ffi::Opened { session, number }
        "rossinhiu_offered" ffi::Offered { session, number, cycle, gap, loss }
        "rossinhiu_command" ffi::Command { kind, rank, bank, cycle }
        "rossinhiu_burst" ffi::Burst { session, count, number, cycle, gap, loss }
        "rossinhiu_answer" ffi::Numbers { number, cycle, gap, loss }
        "rossinhiu_taken_back" ffi::TakenBack { session, number }
        "rossinhiu_standing" ffi::Status { number, client, opening, survivors, depth, last, records }
        "rossinhiu_restored" ffi::Restored { session, number, record }
        "rossinhiu_part" ffi::Part { start, size }
        "rossinhiu_listed" ffi::Listed { session, written, ended }
        "rossinhiu_given" ffi::Given { lent, ended, in_file }
        "rossinhiu_played" ffi::Played { session, lent, written, hex_from, hex_count }
    );
    let mut text = String::from("#include \"rossinhiu.h\"\n#include <stdio.h>\nint main(void) {\n");
    for (word, _) in &all {
        text += &format!("    printf(\"{word} %zu\\n\", {word});\n");
    }
    text += "    return 0;\n}\n";
    let folder = Folder::new();
    let source = folder.at("layout.c");
    fs::write(&source, text).unwrap();
    let came = run(&mut command(&built(&folder, "layout", &source), &[]), b"").text();
    let due: String = all
        .iter()
        .map(|(word, n)| format!("{word} {n}\n"))
        .collect();
    assert_eq!(came, due);
    assert_eq!(
        fingerprint(&due),
        FINGERPRINT,
        "another layout than {LAYOUT}: see LAYOUT"
    );
}

// Power cuts.

/// The player is killed at any of its calls, and the power is cut: what it told of, by what it restored and by what it acted on, is
/// there at the next start.
#[test]
fn nothing_told_is_lost() {
    let folder = Folder::new();
    let (journal, log) = (folder.at("journal"), folder.at("log"));
    let mut rng = Rng::new(seed());
    for player in players(&folder) {
        let (mut disk, mut told) = (Disk::new(&journal), Told::default());
        let mut changed = 0;
        for round in 0..60 {
            let before = disk.shown().unwrap_or_default().to_vec();
            let (number, at, _) = State::restore(&before);
            if number != 0 {
                // Nobody was told of the bad record: it is cut off.
                assert!(told.0.len() <= RECORD * at);
                disk.cut(RECORD * at);
                disk.to_file();
                continue;
            }
            let plan = format!(
                "any {} kill {}",
                rng.between(1, 40),
                rng.pick(&[0, 40, 64, 4096])
            );
            let about = format!("{}, round {round}, {plan}", player.display());
            fs::write(&log, b"").unwrap();
            let words = [journal.as_path(), Path::new("500")];
            let done = run(
                &mut shimmed(&player, &words, &log, &plan),
                SECOND.as_bytes(),
            );
            disk.play(&calls(&log));
            disk.assert_file(&about);
            if !done.out.is_empty() {
                let records = before.len() / RECORD + accepted(&done.out);
                told.add(&disk.shown().unwrap_or_default()[..RECORD * records]);
            }
            if rng.chance(50) {
                let shown = disk.shown().map(<[u8]>::to_vec);
                disk.lose_power(&mut rng);
                disk.to_file();
                changed += usize::from(disk.shown() != shown.as_deref());
            }
            told.assert_kept(&disk, &about);
        }
        assert!(changed > 0 && !told.0.is_empty());
        let _ = fs::remove_file(&journal);
    }
}
