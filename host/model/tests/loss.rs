//! Power cuts: `bench FILE` is killed at any of its calls, and a model of the disk
//! forgets what was not durable. What somebody was told of, by an answer 0 or by
//! what a restore or a status showed, is there at the next start, byte for byte, and
//! no record stands behind a hole.
//!
//! ROSSINHIU_ROUNDS is the number of starts, 1,000 where it is not said.

use rossinhiu_model::disk::{new_bytes, Disk, Told, SECTOR};
use rossinhiu_model::file::{
    answered, from_before, printed, puts, sent, step_at, steps, FileConsole, Played, Start, Step,
};
use rossinhiu_model::generate::{Rng, BURST_LINES};
use rossinhiu_model::harness::*;
use rossinhiu_model::model::RECORD;
use std::fs;
use std::path::PathBuf;

rossinhiu_model::of_both! {
    nothing_told_is_lost,
}

/// What came about: a test in which too little does shows nothing.
#[derive(Debug, Default)]
struct Seen {
    kills: usize,
    power_cuts: usize,
    /// Cuts that found something pending, and those that changed what the file holds.
    pending: usize,
    changed: usize,
    gone: usize,
    /// Starts that showed more than anybody was told before.
    ahead: usize,
    refused: usize,
    /// Bursts that were broken off between two of their records.
    parted: usize,
}

/// One journal, on one disk.
struct Lab<'a> {
    bench: Program,
    rng: Rng,
    folder: Folder,
    path: PathBuf,
    disk: Disk,
    told: Told,
    seen: &'a mut Seen,
}

impl<'a> Lab<'a> {
    fn new(bench: Program, seed: u64, seen: &'a mut Seen) -> Lab<'a> {
        let mut rng = Rng::new(seed);
        let folder = Folder::new();
        let path = folder.at("journal");
        let mut disk = Disk::new(&path);
        let mut model = FileConsole::over(b"");
        let count = rng.between(1, 60) as usize;
        steps(&mut rng, &mut model, count);
        let loose = vec![0; rng.below(64) as usize];
        let bytes = [from_before(&mut rng, &model.file), loose].concat();
        // No file, one that was just made or copied there, or one that has long been there.
        match seed % 4 {
            0 => {}
            1 => disk.make(),
            _ => disk.copy(&bytes),
        }
        if seed % 4 == 3 {
            disk.sync();
            disk.sync_name();
        }
        disk.to_file();
        Lab {
            bench,
            rng,
            folder,
            path,
            disk,
            told: Told::default(),
            seen,
        }
    }

    /// One start, to its end or to a kill; then a power cut, or none.
    fn round(&mut self, about: &str) {
        let before = self.disk.shown().unwrap_or_default().to_vec();
        let played = match FileConsole::start(&before) {
            Start::Open(_, model) => self.play(before, model, about),
            Start::Refused(line, at) => {
                self.refuse(&before, &line, at, about);
                None
            }
            _ => panic!("{about}: no journal is left"),
        };
        self.assert_no_hole(played.as_ref(), about);
        if self.rng.chance(50) {
            self.cut_power();
            self.assert_no_hole(played.as_ref(), about);
        }
        // This is what the next start finds.
        self.told.assert_kept(&self.disk, about);
    }

    /// The file holds a front of what the run was to write, and nothing of it behind that.
    fn assert_no_hole(&mut self, played: Option<&Played>, about: &str) {
        let Some(played) = played else { return };
        let left = self.disk.shown().unwrap_or_default();
        let new = new_bytes(&played.before, &played.after, left);
        let records = new.unwrap_or_else(|fault| panic!("{about}: {fault}")) / RECORD;
        let end = RECORD * records;
        let next = step_at(&played.steps, end).and_then(|step| played.steps[step].put.as_ref());
        self.seen.parted += usize::from(next.is_some_and(|put| put.at < end));
    }

    /// Lines for a start; often it is asked first what is there, and often nothing is written at all.
    fn trace(&mut self, model: &mut FileConsole) -> Vec<Step> {
        let mut trace = Vec::new();
        if self.rng.chance(50) {
            trace.push(model.step("status".to_string()));
        }
        for _ in 0..self.rng.pick(&[0, 1, 5, 10, 20, 30]) {
            match self.rng.chance(20) {
                true => trace.push(model.step("status".to_string())),
                false => trace.extend(steps(&mut self.rng, model, 1)),
            }
        }
        trace
    }

    /// At some call, mostly, the process is killed. The input comes in pieces, so that answers go out between.
    fn plan(&mut self, trace: &[Step]) -> String {
        let rng = &mut self.rng;
        let reads = rng.below(6);
        // The start alone makes up to ten calls.
        let writes = puts(trace).into_iter().map(|put| put.parts().len() as u64);
        let calls = 10 + 2 * writes.sum::<u64>() + 2 * reads;
        let ways = [(1, 8), (1, 8), (6, calls), (6, calls), (6, 2 * calls)];
        let (least, most) = rng.pick(&ways);
        // Within a record, or within those of a burst that are written together.
        let longest = if BURST_LINES { SECTOR } else { RECORD };
        let (last, within) = (rng.between(least, most), rng.between(1, longest as u64 - 1));
        let mut plan = format!("any {last} kill {}", rng.pick(&[0, within, 64, 4_096]));
        for n in 1..=reads {
            plan += &format!(";read {n} short {}", rng.between(1, 120));
        }
        plan
    }

    /// Runs the program, and the disk beside it. Whether it came to its end.
    fn run(&mut self, trace: &[Step], expected: &str, about: &str) -> (Ran, bool) {
        let (log, input) = (self.folder.at("log"), self.folder.at("input"));
        let plan = self.plan(trace);
        fs::write(&input, sent(trace)).unwrap();
        fs::write(&log, b"").unwrap();
        let ran = run_over(
            &mut shimmed(&self.bench, &[&self.path], &log, &plan),
            &input,
        );
        self.disk.play(&calls(&log));
        let about = format!("{about}, {plan}");
        self.disk.assert_file(&about);
        let ended = ran.status.code().is_some();
        let out = ran.text();
        if ended {
            ran.ended_by_itself();
            assert_eq!(out, expected, "{about}");
        } else {
            assert!(expected.starts_with(&out), "{about}: other answers: {out}");
            self.seen.kills += 1;
        }
        (ran, ended)
    }

    /// A start that restores. Its line tells of all that the file holds, so that a status tells of nothing more. Gives what was
    /// played, if all that it found is durable.
    fn play(&mut self, before: Vec<u8>, mut model: FileConsole, about: &str) -> Option<Played> {
        let was_durable = !self.disk.is_pending();
        let trace = self.trace(&mut model);
        let (ran, ended) = self.run(&trace, &printed(&trace), about);
        if !ran.out.is_empty() {
            let restored = before.len() / RECORD;
            let records = restored + answered(&trace, &ran.text());
            self.seen.ahead += usize::from(self.told.0.len() < RECORD * restored);
            self.told.add(&model.file[..RECORD * records]);
        }
        if ended {
            assert_eq!(ran.said(), "", "{about}");
            assert_file(&self.path, &model.file, about);
        }
        (was_durable || !ran.out.is_empty()).then_some(Played {
            steps: trace,
            before,
            after: model.file,
        })
    }

    /// A start that is refused: nobody was told of the bad record, so it is cut off, as the program says.
    fn refuse(&mut self, before: &[u8], line: &str, at: usize, about: &str) {
        let length = RECORD * at;
        assert!(self.told.0.len() <= length, "{about}: told of record {at}");
        let (ran, ended) = self.run(&[], &format!("{line}\n"), about);
        if !ran.out.is_empty() {
            self.told.add(&before[..length]);
        }
        if ended {
            let cut = format!("cut it to {length} bytes");
            ran.told(&["it is safe to cut the file", &cut], about);
            self.disk.cut(length);
            self.disk.to_file();
            self.seen.refused += 1;
        }
    }

    fn cut_power(&mut self) {
        let before = self.disk.shown().map(<[u8]>::to_vec);
        self.seen.power_cuts += 1;
        self.seen.pending += usize::from(self.disk.is_pending());
        self.disk.lose_power(&mut self.rng);
        self.disk.to_file();
        self.seen.changed += usize::from(self.disk.shown() != before.as_deref());
        self.seen.gone += usize::from(before.is_some() && self.disk.shown().is_none());
    }
}

fn nothing_told_is_lost(programs: &Programs) {
    let _turn = turn();
    let mut seen = Seen::default();
    let mut rng = Rng::new(seed());
    let rounds = number("ROSSINHIU_ROUNDS", 1_000);
    let (mut played, mut journals) = (0, 0);
    while played < rounds {
        let seed = seed() + journals;
        let mut lab = Lab::new(programs.bench(), seed, &mut seen);
        for _ in 0..rng.between(1, 12).min(rounds - played) {
            played += 1;
            lab.round(&format!("journal {seed}, start {played}"));
        }
        journals += 1;
    }
    println!("{played} starts over {journals} journals: {seen:?}");
    if played >= 1_000 {
        let Seen { kills, pending, .. } = seen;
        let enough = kills >= 300 && pending >= 60 && seen.changed >= 30;
        let mut rare = vec![seen.gone, seen.ahead, seen.refused];
        rare.extend(BURST_LINES.then_some(seen.parted));
        assert!(enough && rare.iter().all(|n| *n >= 3), "{seen:?}");
    }
}
