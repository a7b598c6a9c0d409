//! What the tests of whole programs share: finding them, running them, files.

use crate::file::{from_before, printed, sent, steps, FileConsole};
use crate::generate::Rng;
use std::io::{ErrorKind, Read, Write};
use std::path::{Path, PathBuf};
use std::process::{Child, Command, ExitStatus, Stdio};
use std::sync::atomic::{AtomicU64, Ordering};
use std::sync::{Mutex, MutexGuard, OnceLock};
use std::time::{Duration, Instant};
use std::{env, fs, thread};

/// A program that takes longer than this for one input is taken to hang.
pub const LIMIT: Duration = Duration::from_secs(60);
/// A player at a pipe does not wait longer than this for one answer.
pub const ANSWER_LIMIT: Duration = Duration::from_secs(10);

/// One test at a time, so that at most a writer and a reader are at work.
pub fn turn() -> MutexGuard<'static, ()> {
    static TURN: Mutex<()> = Mutex::new(());
    TURN.lock().unwrap_or_else(|held| held.into_inner())
}

/// The repository's folder.
pub fn top() -> PathBuf {
    Path::new(env!("CARGO_MANIFEST_DIR")).join("../..")
}

/// A compiler for x86-64: the system's own, or where that is for another processor the one that host/on-arm names.
pub fn compiler(variable: &str, name: &str) -> Command {
    Command::new(env::var_os(variable).unwrap_or(name.into()))
}

pub fn gcc() -> Command {
    compiler("ROSSINHIU_CC", "gcc")
}

/// A program under test, and the words that stand before a test's own.
#[derive(Clone, Debug)]
pub struct Program {
    pub path: PathBuf,
    pub words: &'static [&'static str],
}

/// The two programs of one maker: Rattle's `bench` and `list`, or the tool's words of the same names.
pub struct Programs {
    is_tool: bool,
}

/// The tool with the room that `bench` has. What a test names is a file, whatever it looks like.
const TOOL_BENCH: &[&str] = &["bench", "--records", "65536", "--"];

impl Programs {
    pub const RATTLE: Programs = Programs { is_tool: false };
    pub const TOOL: Programs = Programs { is_tool: true };

    pub fn is_tool(&self) -> bool {
        self.is_tool
    }

    pub fn bench(&self) -> Program {
        match self.is_tool {
            true => tool(TOOL_BENCH),
            false => program("ROSSINHIU_BENCH", "crates/bench/out/bench", "rt ci", &[]),
        }
    }

    pub fn list(&self) -> Program {
        match self.is_tool {
            true => tool(&["list"]),
            false => program("ROSSINHIU_LIST", "crates/list/out/list", "rt ci", &[]),
        }
    }
}

/// The tool, with these words before a test's own.
pub fn tool(words: &'static [&'static str]) -> Program {
    let build = "rt lib --cpu x86-64 in crates/capi, then cargo build --release -p rossinhiu-tool in host/";
    program(
        "ROSSINHIU_TOOL",
        "host/target/release/rossinhiu",
        build,
        words,
    )
}

fn program(variable: &str, name: &str, build: &str, words: &'static [&'static str]) -> Program {
    let beside = top().join(name);
    let path = env::var_os(variable).map_or(beside, PathBuf::from);
    assert!(
        path.is_file(),
        "the program under test, `{name}`, is not there: {}\n\
         Build it with `{build}`, or name another in {variable}.",
        path.display()
    );
    let path = fs::canonicalize(path).unwrap();
    Program { path, words }
}

/// Each of these tests twice: of Rattle's programs and of the tool.
#[macro_export]
macro_rules! of_both {
    ($($name:ident),* $(,)?) => {
        mod rattle {
            $(#[test] fn $name() { super::$name(&$crate::harness::Programs::RATTLE) })*
        }
        mod tool {
            $(#[test] fn $name() { super::$name(&$crate::harness::Programs::TOOL) })*
        }
    };
}

/// What can be started.
pub trait Starts {
    fn start(&self) -> Command;
}

impl Starts for Path {
    fn start(&self) -> Command {
        Command::new(self)
    }
}

impl Starts for PathBuf {
    fn start(&self) -> Command {
        Command::new(self)
    }
}

impl Starts for Program {
    fn start(&self) -> Command {
        let mut command = Command::new(&self.path);
        command.args(self.words);
        command
    }
}

/// A number that the environment may set.
pub fn number(variable: &str, otherwise: u64) -> u64 {
    match env::var(variable) {
        Ok(text) => text
            .parse()
            .unwrap_or_else(|_| panic!("{variable} is no number: {text}")),
        Err(_) => otherwise,
    }
}

pub fn seed() -> u64 {
    number("ROSSINHIU_SEED", 20_260_000)
}

/// A folder of its own, gone at the end.
pub struct Folder(pub PathBuf);

impl Folder {
    pub fn new() -> Folder {
        static NEXT: AtomicU64 = AtomicU64::new(0);
        loop {
            let number = NEXT.fetch_add(1, Ordering::Relaxed);
            let name = format!("rossinhiu-{}-{number}", std::process::id());
            let path = env::temp_dir().join(name);
            match fs::create_dir(&path) {
                Ok(()) => return Folder(path),
                // Left by a run of the same number that was killed.
                Err(error) if error.kind() == ErrorKind::AlreadyExists => {}
                Err(error) => panic!("{}: {error}", path.display()),
            }
        }
    }

    pub fn at(&self, name: &str) -> PathBuf {
        self.0.join(name)
    }
}

impl Drop for Folder {
    fn drop(&mut self) {
        let _ = fs::remove_dir_all(&self.0);
    }
}

pub fn assert_file(path: &Path, expected: &[u8], about: &str) {
    let got = fs::read(path).unwrap_or_else(|e| panic!("{about}: {e}"));
    if got != expected {
        let same = got.iter().zip(expected).take_while(|(a, b)| a == b);
        panic!(
            "{about}: the file has {} bytes, expected {}; the first {} agree",
            got.len(),
            expected.len(),
            same.count()
        );
    }
}

/// What a run came to. The tool's summary stands by itself, and not with what else was said.
pub struct Ran {
    pub out: Vec<u8>,
    pub err: Vec<u8>,
    pub summary: String,
    pub status: ExitStatus,
    is_tool: bool,
}

/// Where document 01's number stands among an answer's words; none if it has no number. A cycle, a gap and its loss stand behind it.
pub fn number_at(words: &[&str]) -> Option<usize> {
    match words[0] {
        "open" | "offer" | "ask" | "back" | "status" | "restore" | "gaps" => Some(1),
        // How many were accepted comes first.
        "burst" => Some(2),
        _ => None,
    }
}

/// Whether an answer says that something was refused or malformed.
fn is_refused(answer: &str) -> bool {
    let words: Vec<&str> = answer.split(' ').collect();
    answer == "?" || number_at(&words).is_some_and(|at| words[at] != "0")
}

/// The exit number that the tool owes for what it wrote, where nothing went wrong.
pub fn exit_due(out: &[u8]) -> i32 {
    let text = String::from_utf8_lossy(out);
    i32::from(text.lines().any(is_refused))
}

impl Ran {
    pub fn text(&self) -> String {
        String::from_utf8(self.out.clone()).expect("answers are plain text")
    }

    pub fn said(&self) -> String {
        String::from_utf8_lossy(&self.err).into_owned()
    }

    /// It said one line on standard error, and these words are in it.
    pub fn told(&self, words: &[&str], about: &str) {
        let said = self.said();
        let is_line = said.ends_with('\n') && said.lines().count() == 1;
        assert!(is_line, "{about}: not one line: {said}");
        for word in words {
            assert!(said.contains(word), "{about}: `{word}` is not in: {said}");
        }
    }

    /// No document speaks of exit numbers of `bench` and `list`; a signal or a panic is none of them. The tool's are fixed.
    pub fn ended_by_itself(&self) {
        if self.is_tool {
            let due = if self.err.is_empty() {
                exit_due(&self.out)
            } else {
                3
            };
            assert_eq!(self.status.code(), Some(due), "{}", self.said());
        }
        assert!(
            !matches!(self.status.code(), None | Some(101)),
            "it broke off: {}; {}",
            self.status,
            self.said()
        );
    }
}

pub fn command(program: &(impl Starts + ?Sized), words: &[&Path]) -> Command {
    let mut command = program.start();
    command.args(words);
    command.stdin(Stdio::piped());
    command.stdout(Stdio::piped());
    command.stderr(Stdio::piped());
    command
}

pub fn spawn(command: &mut Command) -> Child {
    command
        .spawn()
        .unwrap_or_else(|error| panic!("cannot start {:?}: {error}", command.get_program()))
}

/// Runs it with a file or a folder as standard input: what one read can bring does not depend on a sender.
pub fn run_over(command: &mut Command, input: &Path) -> Ran {
    let input = fs::File::open(input).unwrap_or_else(|e| panic!("{}: {e}", input.display()));
    let is_tool = is_tool(command);
    gathered(spawn(command.stdin(input)), is_tool)
}

fn is_tool(command: &Command) -> bool {
    Path::new(command.get_program()).ends_with("rossinhiu")
}

/// Sends the input, and gathers all that is written.
pub fn run(command: &mut Command, input: &[u8]) -> Ran {
    let is_tool = is_tool(command);
    let mut child = spawn(command.stdin(Stdio::piped()));
    let mut stdin = child.stdin.take().unwrap();
    let input = input.to_vec();
    // A program that ends early reads no more: that is no fault here.
    let sender = thread::spawn(move || {
        let _ = stdin.write_all(&input);
    });
    let ran = gathered(child, is_tool);
    let _ = sender.join();
    ran
}

/// All that it writes to its end.
fn gathered(mut child: Child, is_tool: bool) -> Ran {
    let mut err = child.stderr.take().unwrap();
    let errors = thread::spawn(move || {
        let mut bytes = Vec::new();
        let _ = err.read_to_end(&mut bytes);
        bytes
    });
    let mut stdout = child.stdout.take().unwrap();
    let answers = thread::spawn(move || {
        let mut bytes = Vec::new();
        let _ = stdout.read_to_end(&mut bytes);
        bytes
    });
    let until = Instant::now() + LIMIT;
    let status = loop {
        if let Some(status) = child.try_wait().unwrap() {
            break status;
        }
        if Instant::now() >= until {
            let _ = child.kill();
            panic!("it did not end within {LIMIT:?}");
        }
        thread::sleep(Duration::from_micros(300));
    };
    let out = answers.join().unwrap();
    let (err, summary) = parted(&errors.join().unwrap());
    Ran {
        out,
        err,
        summary,
        status,
        is_tool,
    }
}

/// What was said on standard error, and the tool's summary.
fn parted(said: &[u8]) -> (Vec<u8>, String) {
    let (mut err, mut summary) = (Vec::new(), String::new());
    for line in said.split_inclusive(|b| *b == b'\n') {
        match line.starts_with(b"summary: ") {
            true => summary += &String::from_utf8_lossy(line),
            false => err.extend_from_slice(line),
        }
    }
    (err, summary)
}

/// Plays lines over the file to the end, and holds all to the model. Often the file is one from before requests 2026-04, 2026-05 and 2026-07.
pub fn play_on(program: &Program, path: &Path, rng: &mut Rng, count: usize, about: &str) {
    let found = fs::read(path).unwrap();
    let file = from_before(rng, &found);
    if file != found {
        fs::write(path, &file).unwrap();
    }
    let mut model = FileConsole::over(&file);
    let steps = steps(rng, &mut model, count);
    let ran = run(&mut command(program, &[path]), &sent(&steps));
    ran.ended_by_itself();
    assert_eq!(ran.text(), printed(&steps), "{about}");
    assert_eq!(ran.said(), "", "{about}");
    assert_file(path, &model.file, about);
}

/// The shim, built once for each test program, beside it.
pub fn shim() -> &'static Path {
    static SHIM: OnceLock<PathBuf> = OnceLock::new();
    SHIM.get_or_init(|| {
        let source = Path::new(env!("CARGO_MANIFEST_DIR")).join("shim/shim.c");
        let this = env::current_exe().expect("the test program's own path");
        let made = this.with_extension("shim.so");
        let status = gcc()
            .args("-O1 -Wall -Wextra -Werror -shared -fPIC -o".split(' '))
            .args([made.as_path(), source.as_path()])
            .status()
            .expect("gcc builds the shim");
        assert!(status.success(), "gcc: {status}");
        made
    })
}

/// A program under the shim: what it logs, and the plans for calls that go wrong.
pub fn shimmed(
    program: &(impl Starts + ?Sized),
    words: &[&Path],
    log: &Path,
    plan: &str,
) -> Command {
    let mut command = command(program, words);
    command.env("LD_PRELOAD", shim());
    command.env("SHIM_LOG", log);
    if !plan.is_empty() {
        command.env("SHIM_PLAN", plan);
    }
    command
}

/// One call that the shim wrote down.
#[derive(Clone, Debug, Default, PartialEq, Eq)]
pub struct Call {
    pub name: String,
    pub path: String,
    /// It is an `open`, and the file was not there before it.
    pub made: bool,
    pub fd: i64,
    pub count: i64,
    pub offset: i64,
    pub result: i64,
    pub bytes: Vec<u8>,
}

pub fn calls(log: &Path) -> Vec<Call> {
    let text = fs::read_to_string(log).unwrap_or_else(|e| panic!("{}: {e}", log.display()));
    text.lines().map(call).collect()
}

fn call(line: &str) -> Call {
    let words: Vec<&str> = line.splitn(4, ' ').collect();
    let number = |word: &str| word.parse::<i64>().unwrap_or_else(|_| panic!("{line}"));
    if let ["open", result, made, path] = words[..] {
        return Call {
            name: "open".to_string(),
            path: path.to_string(),
            made: made == "made",
            fd: number(result),
            result: number(result),
            ..Call::default()
        };
    }
    let words: Vec<&str> = line.split(' ').collect();
    let hex = words[5].trim_start_matches('-');
    let byte = |i: usize| u8::from_str_radix(&hex[2 * i..2 * i + 2], 16).unwrap();
    Call {
        name: words[0].to_string(),
        fd: number(words[1]),
        count: number(words[2]),
        offset: number(words[3]),
        result: number(words[4]),
        bytes: (0..hex.len() / 2).map(byte).collect(),
        ..Call::default()
    }
}
