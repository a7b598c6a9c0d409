//! `bench FILE` held against the model: the order of its calls, failed writes
//! and syncs, kills, cut files, a full disk.

use rossinhiu_model::disk::new_bytes;
use rossinhiu_model::file::{
    answered, from_before, printed, puts, sent, step_at, steps, FileConsole, Played, Start, Step,
};
use rossinhiu_model::generate::{opening_a, script, Rng, MOODS};
use rossinhiu_model::harness::*;
use rossinhiu_model::listing::list;
use rossinhiu_model::model::RECORD;
use rossinhiu_model::order::{broken_off, touches, Touch};
use std::fs;
use std::io::{BufRead, BufReader, Read, Write};
use std::os::unix::process::{CommandExt, ExitStatusExt};
use std::path::Path;
use std::sync::atomic::{AtomicUsize, Ordering};
use std::sync::{mpsc, Arc};
use std::thread;
use std::time::{Duration, Instant};

rossinhiu_model::of_both! {
    scripts_in_a_file_are_answered_as_the_model_does,
    a_player_at_a_pipe_gets_each_answer,
    each_start_goes_on,
    an_answer_comes_after_its_record_is_durable,
    a_failed_write_has_no_answer,
    a_kill_at_each_call,
    a_hundred_kills,
    every_cut_restores,
    a_full_disk,
}

/// Bytes of a record that was cut off.
fn loose(count: usize) -> Vec<u8> {
    [vec![1], vec![9; 63]].concat()[..count].to_vec()
}

/// A session in mode 1 from before request 2026-04, with such bytes behind.
fn older(count: usize) -> Vec<u8> {
    let mut model = FileConsole::over(b"");
    model.step(opening_a());
    model.file[3] = 1;
    model.file[48] = 0;
    [model.file, loose(count)].concat()
}

// The text language.

/// Scripts of every mood, played over a new file.
fn scripts_in_a_file_are_answered_as_the_model_does(programs: &Programs) {
    let _turn = turn();
    let (bench, folder) = (programs.bench(), Folder::new());
    for seed in seed()..seed() + 2 * MOODS.len() as u64 {
        let path = folder.at(&format!("{seed}"));
        let script = script(seed, 400);
        let mut model = FileConsole::over(b"");
        let expected = format!("restore 0 0\n{}", model.play(&script.input()));
        let ran = run(&mut command(&bench, &[&path]), &script.input());
        ran.ended_by_itself();
        assert!(ran.text() == expected, "seed {seed}, {:?}", script.mood);
        assert_eq!(ran.said(), "");
        assert_file(&path, &model.file, &format!("seed {seed}"));
    }
}

fn a_player_at_a_pipe_gets_each_answer(programs: &Programs) {
    let _turn = turn();
    let (bench, folder) = (programs.bench(), Folder::new());
    let path = folder.at("journal");
    let mut rng = Rng::new(seed());
    let mut model = FileConsole::over(b"");
    let mut child = spawn(&mut command(&bench, &[&path]));
    let mut input = child.stdin.take().unwrap();
    let output = BufReader::new(child.stdout.take().unwrap());
    let (tell, answers) = mpsc::channel();
    thread::spawn(move || {
        let lines = output.lines().map_while(Result::ok);
        lines.take_while(|l| tell.send(l.clone()).is_ok()).count()
    });
    let mut expect = |answer: &str, about: &str| match answers.recv_timeout(ANSWER_LIMIT) {
        Ok(line) => assert_eq!(line, answer, "{about}"),
        Err(_) => {
            let _ = child.kill();
            panic!("no answer within {ANSWER_LIMIT:?}: {about}");
        }
    };
    expect("restore 0 0", "the start");
    for step in steps(&mut rng, &mut model, 300) {
        input.write_all(step.sent.as_bytes()).unwrap();
        input.write_all(b"\n").unwrap();
        if let Some(answer) = &step.answer {
            expect(answer, &step.sent);
        }
    }
    drop(input);
    // Some of the lines are refused.
    let code = if programs.is_tool() { 1 } else { 0 };
    assert_eq!(child.wait().unwrap().code(), Some(code));
    assert_file(&path, &model.file, "after the talk");
}

/// Twenty starts over one file, each of which goes on where the last ended.
fn each_start_goes_on(programs: &Programs) {
    let _turn = turn();
    let (bench, folder) = (programs.bench(), Folder::new());
    let path = folder.at("journal");
    let mut rng = Rng::new(seed() + 1);
    fs::write(&path, b"").unwrap();
    for start in 0..20 {
        play_on(&bench, &path, &mut rng, 50, &format!("start {start}"));
    }
    let bytes = fs::read(&path).unwrap();
    let listed = run(&mut command(&programs.list(), &[]), &bytes);
    assert!(listed.out == list(&bytes));
}

// The order of calls.

/// Plays the steps over a file with these bytes, or where there is none, and holds the calls to the order: before each read all answers to whole lines are
/// out; before each answer its records were written whole and made durable, sector after sector. Its writes and syncs.
fn whole_run(bench: &Program, folder: &Folder, steps: &[Step], base: Option<&[u8]>) -> Vec<Touch> {
    let (path, log) = (folder.at("whole"), folder.at("whole.log"));
    for left in [&path, &log] {
        let _ = fs::remove_file(left);
    }
    if let Some(bytes) = base {
        fs::write(&path, bytes).unwrap();
    }
    let ran = run(&mut shimmed(bench, &[&path], &log, ""), &sent(steps));
    ran.ended_by_itself();
    touches(&calls(&log), &path, steps).unwrap_or_else(|fault| panic!("{fault}"))
}

fn an_answer_comes_after_its_record_is_durable(programs: &Programs) {
    let _turn = turn();
    let (bench, folder) = (programs.bench(), Folder::new());
    let mut rng = Rng::new(seed() + 2);
    let mut file: Option<Vec<u8>> = None;
    for _ in 0..8 {
        let mut model = FileConsole::over(file.as_deref().unwrap_or_default());
        let steps = steps(&mut rng, &mut model, 150);
        whole_run(&bench, &folder, &steps, file.as_deref());
        assert_file(&folder.at("whole"), &model.file, "under the shim");
        // Loose bytes for the next round, often behind a session in mode 1.
        let cut = rng.below(64);
        let left = &model.file[..model.file.len() - cut as usize];
        file = Some(from_before(&mut rng, left));
    }
}

// Failed calls.

/// A run in which one call goes wrong, so many of its bytes kept: what was printed before it, what is said,
/// what the file holds, and how the next start goes on.
fn assert_broken(
    (bench, folder): (&Program, &Folder),
    played: &Played,
    touch: &Touch,
    (way, kept): (&str, usize),
) {
    let (path, log) = (folder.at("broken"), folder.at("broken.log"));
    let plan = format!("{} {} {way}", touch.name, touch.turn);
    fs::write(&path, &played.before).unwrap();
    let _ = fs::remove_file(&log);
    let lines = sent(&played.steps);
    let ran = run(&mut shimmed(bench, &[&path], &log, &plan), &lines);
    let expected = printed(&played.steps[..touch.step]);
    if way.starts_with("kill") {
        assert_eq!(ran.status.signal(), Some(9), "{plan}");
        assert!(expected.starts_with(&ran.text()), "{plan}");
    } else {
        ran.ended_by_itself();
        assert_eq!(ran.text(), expected, "{plan}");
        let advice = match touch.name {
            "pwrite" => "room",
            _ => "start with the copy",
        };
        ran.told(&[advice], &plan);
    }
    let file = broken_off(&played.before, &played.after, touch.at + kept);
    assert_file(&path, &file, &plan);
    let mut rng = Rng::new(seed() + touch.turn as u64);
    play_on(bench, &path, &mut rng, 15, &plan);
}

fn a_failed_write_has_no_answer(programs: &Programs) {
    let _turn = turn();
    let (bench, folder) = (programs.bench(), Folder::new());
    let mut rng = Rng::new(seed() + 3);
    for base in [loose(40), older(40)] {
        let played = Played::new(&mut rng, &base, 120);
        let touches = whole_run(&bench, &folder, &played.steps, Some(&played.before));
        assert!(touches.len() > 20);
        // Each write, and the sync behind it.
        for touch in touches.iter().take(48) {
            let about = (&bench, &folder);
            assert_broken(about, &played, touch, ("errno 5", 0));
            if touch.name != "pwrite" {
                continue;
            }
            assert_broken(about, &played, touch, ("errno 28", 0));
            let last = touch.count - 1;
            for kept in [0, 1, rng.between(2, last as u64 - 1) as usize, last] {
                let way = format!("short {kept}");
                assert_broken(about, &played, touch, (&way, kept));
            }
        }
    }
}

/// The process is killed at every moment of the way of a record.
fn a_kill_at_each_call(programs: &Programs) {
    let _turn = turn();
    let (bench, folder) = (programs.bench(), Folder::new());
    let mut rng = Rng::new(seed() + 4);
    let played = Played::new(&mut rng, &older(13), 100);
    let touches = whole_run(&bench, &folder, &played.steps, Some(&played.before));
    for touch in touches.iter().take(32) {
        let about = (&bench, &folder);
        assert_broken(about, &played, touch, ("kill 0", 0));
        if touch.count > 0 {
            for kept in [rng.between(1, touch.count as u64 - 1) as usize, touch.count] {
                let way = format!("kill {kept}");
                assert_broken(about, &played, touch, (&way, kept));
            }
        }
    }
}

// Kills at random moments.

/// Sends the lines in pieces; a patient sender sees an answer between two pieces, where there is one.
fn send_pieces(input: &mut impl Write, pieces: &[Vec<u8>], patient: bool, out: &AtomicUsize) {
    let mut seen = 0;
    for piece in pieces {
        let wait = Duration::from_micros(if patient { 20_000 } else { 50 });
        let until = Instant::now() + wait;
        while Instant::now() < until && (!patient || out.load(Ordering::Relaxed) == seen) {
            thread::sleep(Duration::from_micros(50));
        }
        seen = out.load(Ordering::Relaxed);
        if input.write_all(piece).is_err() {
            break;
        }
    }
}

/// All that is printed, and its length while it comes.
fn gather(mut output: impl Read, length: &AtomicUsize) -> Vec<u8> {
    let mut out = Vec::new();
    let mut piece = [0; 4096];
    loop {
        let count = output.read(&mut piece).unwrap();
        if count == 0 {
            return out;
        }
        out.extend_from_slice(&piece[..count]);
        length.store(out.len(), Ordering::Relaxed);
    }
}

/// Starts the program over the file, sends the pieces, and kills it once the
/// file has a length, and a while after. What was printed.
fn kill_at(
    (program, path): (&Program, &Path),
    (pieces, patient): (Vec<Vec<u8>>, bool),
    (length, wait): (u64, Duration),
) -> String {
    let mut child = spawn(&mut command(program, &[path]));
    let (mut input, output) = (child.stdin.take().unwrap(), child.stdout.take().unwrap());
    let out = Arc::new(AtomicUsize::new(0));
    let seen = Arc::clone(&out);
    let sender = thread::spawn(move || {
        send_pieces(&mut input, &pieces, patient, &seen);
        input
    });
    let answers = thread::spawn(move || gather(output, &out));
    let until = Instant::now() + LIMIT;
    while fs::metadata(path).unwrap().len() < length {
        assert!(Instant::now() < until, "the file does not grow to {length}");
        thread::yield_now();
    }
    let end = Instant::now() + wait;
    while Instant::now() < end {
        thread::yield_now();
    }
    child.kill().unwrap();
    child.wait().unwrap();
    let _ = sender.join().unwrap();
    String::from_utf8(answers.join().unwrap()).expect("answers are plain text")
}

/// The number of records in the file, whose bytes are those of the model after so many bytes of
/// its records, and nothing is behind them but what was there before.
fn records_kept(before: &[u8], after: &[u8], left: &[u8], about: &str) -> usize {
    let new = new_bytes(before, after, left).unwrap_or_else(|fault| panic!("{about}: {fault}"));
    let length = new.max(before.len());
    assert_eq!(left.len(), length, "{about}: no order of calls leaves it");
    new / RECORD
}

/// One run, killed somewhere: its records that were answered, that are in the file, and that were to come in all.
fn killed(bench: &Program, path: &Path, rng: &mut Rng, about: &str) -> [usize; 3] {
    let base = fs::read(path).unwrap();
    let count = rng.between(30, 300) as usize;
    let played = Played::new(rng, &base, count);
    let (steps, restored) = (&played.steps, base.len() / RECORD);
    let puts = puts(steps);
    let length = match rng.below(puts.len() as u64 + 1) as usize {
        0 => 0,
        n => puts[n - 1].at + RECORD,
    };
    let wait = Duration::from_micros(rng.below(300));
    let (lines, size) = (sent(steps), rng.pick(&[30, 100, 500, 4000]));
    let pieces = lines.chunks(size).map(<[u8]>::to_vec).collect();
    let sending = (pieces, rng.chance(50));
    let out = kill_at((bench, path), sending, (length as u64, wait));
    assert!(printed(steps).starts_with(&out), "{about}: other answers");
    let kept = records_kept(&base, &played.after, &fs::read(path).unwrap(), about);
    let all = puts.iter().map(|put| put.records()).sum();
    [answered(steps, &out), kept - restored, all]
}

fn a_hundred_kills(programs: &Programs) {
    let _turn = turn();
    let (bench, folder) = (programs.bench(), Folder::new());
    let path = folder.at("journal");
    let mut rng = Rng::new(seed() + 5);
    let (mut under_way, mut ahead, mut spoken, mut cuts) = (0, 0, 0, 0);
    fs::write(&path, b"").unwrap();
    for round in 0..100 {
        let about = format!("kill {round}");
        let [answered, kept, all] = killed(&bench, &path, &mut rng, &about);
        assert!(
            answered <= kept,
            "{about}: {answered} answered, {kept} kept"
        );
        under_way += usize::from(0 < kept && kept < all);
        ahead += usize::from(answered < kept);
        spoken += usize::from(0 < answered);
        let mut file = fs::read(&path).unwrap();
        if rng.chance(60) && file.len() >= RECORD {
            let last = (file.len() / RECORD - 1) * RECORD;
            file.truncate(last + rng.below(RECORD as u64) as usize);
            fs::write(&path, from_before(&mut rng, &file)).unwrap();
            cuts += 1;
        }
        assert!(matches!(FileConsole::start(&file), Start::Open(..)));
    }
    play_on(&bench, &path, &mut rng, 100, "after the kills");
    let bytes = fs::read(&path).unwrap();
    let listed = run(&mut command(&programs.list(), &[]), &bytes);
    assert!(listed.out == list(&bytes));
    println!(
        "100 kills: {under_way} between the first record and the last, {spoken} after an answer, \
         {ahead} with a record ahead of its answer; {cuts} cuts; {} bytes",
        bytes.len()
    );
    assert!(under_way >= 10 && spoken >= 5 && cuts >= 30);
}

/// A file cut at every byte of its last record.
fn every_cut_restores(programs: &Programs) {
    let _turn = turn();
    let (bench, folder) = (programs.bench(), Folder::new());
    let path = folder.at("journal");
    let mut rng = Rng::new(seed() + 6);
    let mut model = FileConsole::over(b"");
    steps(&mut rng, &mut model, 60);
    let whole = model.file;
    for cut in whole.len() - RECORD..=whole.len() {
        fs::write(&path, &whole[..cut]).unwrap();
        play_on(&bench, &path, &mut rng, 12, &format!("cut to {cut}"));
    }
}

// A full disk.

const RLIMIT_FSIZE: i32 = 1;
const SIGXFSZ: i32 = 25;
const SIG_IGN: usize = 1;

extern "C" {
    fn setrlimit(resource: i32, limit: *const [u64; 2]) -> i32;
    fn signal(number: i32, handler: usize) -> usize;
}

/// The system itself lets no file grow beyond so many bytes: the write that
/// reaches the limit comes short, or fails with nothing written.
fn a_full_disk(programs: &Programs) {
    let _turn = turn();
    let (bench, folder) = (programs.bench(), Folder::new());
    let mut rng = Rng::new(seed() + 8);
    for limit in [0, 40, 64, 200, 640, 999] {
        let path = folder.at(&format!("journal{limit}"));
        fs::write(&path, b"").unwrap();
        let mut model = FileConsole::over(b"");
        let steps = steps(&mut rng, &mut model, 80);
        assert!(model.file.len() > limit);
        let mut limited = command(&bench, &[&path]);
        // SAFETY: both calls may stand between fork and exec, and touch no memory.
        unsafe {
            limited.pre_exec(move || {
                signal(SIGXFSZ, SIG_IGN);
                match setrlimit(RLIMIT_FSIZE, &[limit as u64, limit as u64]) {
                    0 => Ok(()),
                    _ => Err(std::io::Error::last_os_error()),
                }
            });
        }
        let ran = run(&mut limited, &sent(&steps));
        ran.ended_by_itself();
        let place = step_at(&steps, limit).unwrap();
        assert_eq!(ran.text(), printed(&steps[..place]));
        ran.told(&["room"], "a full disk");
        assert_file(&path, &model.file[..limit], "a full disk");
        play_on(&bench, &path, &mut rng, 30, "room again");
    }
}
