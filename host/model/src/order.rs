//! The order of a program's calls over a journal in a file, as the shim wrote them down: what is
//! durable before what is answered, and which records may go to the disk together.

use crate::disk::SECTOR;
use crate::file::{answered, printed, puts, sent, step_at, Step};
use crate::harness::Call;
use crate::model::RECORD;
use std::path::Path;

/// One write of records, or the sync behind it, in a run that came to its end: a place where another run can be broken off.
#[derive(Clone, Debug, PartialEq, Eq)]
pub struct Touch {
    /// `pwrite` or `fdatasync`.
    pub name: &'static str,
    /// Its number among the calls of its name, from 1.
    pub turn: usize,
    /// Where its bytes begin; for a sync, where the bytes written before it end.
    pub at: usize,
    pub count: usize,
    /// The step whose answer waits for it.
    pub step: usize,
}

/// A run as far as its calls were looked at.
struct Run<'a> {
    path: &'a Path,
    steps: &'a [Step],
    input: Vec<u8>,
    file: i64,
    /// Bytes of the input that were read.
    taken: usize,
    out: Vec<u8>,
    /// Where the records end that were restored, that are written, that are durable.
    restored: usize,
    written: usize,
    durable: usize,
    syncs: usize,
    touches: Vec<Touch>,
}

fn holds(is_so: bool, fault: &str) -> Result<(), String> {
    match is_so {
        true => Ok(()),
        false => Err(fault.to_string()),
    }
}

impl<'a> Run<'a> {
    fn new(path: &'a Path, steps: &'a [Step]) -> Run<'a> {
        let restored = puts(steps).first().map_or(0, |put| put.at);
        Run {
            path,
            steps,
            input: sent(steps),
            file: -1,
            taken: 0,
            out: Vec::new(),
            restored,
            written: restored,
            durable: restored,
            syncs: 0,
            touches: Vec::new(),
        }
    }

    fn see(&mut self, call: &Call) -> Result<(), String> {
        match call.name.as_str() {
            "open" if call.result >= 0 && Path::new(&call.path) == self.path => self.file = call.fd,
            "read" if call.fd == 0 => return self.read(call),
            "pwrite" => return self.write(call),
            "fdatasync" => return self.sync(call),
            "write" if call.fd == 1 => return self.answer(call),
            "write" => return holds(call.fd != self.file, "the file written without a place"),
            "ftruncate" => return Err("a file was cut".to_string()),
            _ => {}
        }
        Ok(())
    }

    /// A read could wait: all whole lines are answered before it.
    fn read(&mut self, call: &Call) -> Result<(), String> {
        let lines = self.input[..self.taken].iter().filter(|b| **b == b'\n');
        let due = printed(&self.steps[..lines.count()]).into_bytes();
        holds(self.out == due, "an answer held back over a read")?;
        self.taken += call.result as usize;
        Ok(())
    }

    /// Whole records of one line and of one sector, at their place. Another sector is begun only when all before it is durable.
    fn write(&mut self, call: &Call) -> Result<(), String> {
        let (at, count) = (call.offset as usize, call.count as usize);
        holds(call.fd == self.file, "another file written")?;
        holds(at == self.written, "not behind the last record")?;
        let step = step_at(self.steps, at).ok_or("no record is due")?;
        let put = self.steps[step].put.as_ref().ok_or("no record is due")?;
        let whole = count > 0 && count % RECORD == 0 && at + count <= put.end();
        holds(whole, "not whole records of one line")?;
        let due = &put.bytes[at - put.at..at + count - put.at];
        holds(call.bytes == due, "other bytes than the records'")?;
        holds((at % SECTOR) + count <= SECTOR, "more than one sector")?;
        let is_begun = at % SECTOR != 0;
        holds(
            self.durable == self.written || is_begun,
            "a sector begun before the last one was durable",
        )?;
        self.written = at + count;
        let turn = 1 + self.turns("pwrite");
        self.touch("pwrite", turn, (at, count), step);
        Ok(())
    }

    fn turns(&self, name: &str) -> usize {
        self.touches.iter().filter(|t| t.name == name).count()
    }

    fn touch(&mut self, name: &'static str, turn: usize, (at, count): (usize, usize), step: usize) {
        self.touches.push(Touch {
            name,
            turn,
            at,
            count,
            step,
        });
    }

    fn sync(&mut self, call: &Call) -> Result<(), String> {
        let is_right = call.fd == self.file && call.result == 0;
        holds(is_right, "another file synced, or in vain")?;
        self.syncs += 1;
        let last = self.touches.last().map(|last| last.step);
        if let Some(step) = last.filter(|_| self.durable < self.written) {
            self.touch("fdatasync", self.syncs, (self.written, 0), step);
        }
        self.durable = self.written;
        Ok(())
    }

    /// An answer's records are durable before its first byte.
    fn answer(&mut self, call: &Call) -> Result<(), String> {
        self.out.extend_from_slice(&call.bytes);
        let told = answered(self.steps, &String::from_utf8_lossy(&self.out));
        let durable = (self.durable - self.restored) / RECORD;
        holds(told <= durable, "answered before it was durable")
    }

    fn end(self) -> Result<Vec<Touch>, String> {
        let end = puts(self.steps)
            .last()
            .map_or(self.restored, |put| put.end());
        holds(self.written == end, "a record is missing")?;
        holds(self.durable == end, "the end is not durable")?;
        let due = printed(self.steps).into_bytes();
        holds(self.out == due, "other answers")?;
        Ok(self.touches)
    }
}

/// Holds the calls of a whole run over these steps to the order. Its writes and syncs of records, or the first fault.
pub fn touches(calls: &[Call], path: &Path, steps: &[Step]) -> Result<Vec<Touch>, String> {
    let mut run = Run::new(path, steps);
    for call in calls {
        let seen = run.see(call);
        seen.map_err(|fault| format!("{fault}: {call:?}"))?;
    }
    run.end()
}

/// What a run leaves of its file that is broken off when so many bytes of its records' places are written.
pub fn broken_off(before: &[u8], after: &[u8], end: usize) -> Vec<u8> {
    let old = before.get(end..).unwrap_or_default();
    [&after[..end], old].concat()
}

#[cfg(test)]
mod tests {
    use super::*;
    use crate::disk::{new_bytes, Disk};
    use crate::file::{from_before, Played, Put};
    use crate::generate::{Forms, Rng};
    use crate::model::State;

    const PATH: &str = "/lab/day";

    /// What a program does for one line.
    enum Do {
        Write(Put),
        Sync,
        Answer,
    }
    use Do::*;

    /// How a program brings a line's records to the disk.
    type Way = fn(&Put) -> Vec<Do>;

    fn records(put: &Put) -> Vec<Put> {
        let record = |(i, bytes): (usize, &[u8])| Put {
            at: put.at + RECORD * i,
            bytes: bytes.to_vec(),
        };
        put.bytes.chunks(RECORD).enumerate().map(record).collect()
    }

    /// Each written, and each made durable.
    fn one_by_one(parts: Vec<Put>) -> Vec<Do> {
        parts
            .into_iter()
            .flat_map(|part| [Write(part), Sync])
            .collect()
    }

    fn then_answer(mut done: Vec<Do>) -> Vec<Do> {
        done.push(Answer);
        done
    }

    const RIGHT: [(&str, Way); 3] = [
        ("sector after sector", |put| {
            then_answer(one_by_one(put.parts()))
        }),
        ("record after record", |put| {
            then_answer(one_by_one(records(put)))
        }),
        ("a sector in several writes", |put| {
            let mut done = Vec::new();
            for part in put.parts() {
                done.extend(records(&part).into_iter().map(Write));
                done.push(Sync);
            }
            then_answer(done)
        }),
    ];

    /// Each breaks a promise: a hole can be left, or what was answered is lost.
    const LOSING: [(&str, Way); 8] = [
        ("a burst in one write", |put| {
            vec![Write(put.clone()), Sync, Answer]
        }),
        ("sectors not synced between", |put| {
            let mut done: Vec<Do> = put.parts().into_iter().map(Write).collect();
            done.extend([Sync, Answer]);
            done
        }),
        ("the last sector first", |put| {
            then_answer(one_by_one(put.parts().into_iter().rev().collect()))
        }),
        ("the answer first", |put| {
            let mut done = one_by_one(put.parts());
            done.insert(0, Answer);
            done
        }),
        ("the answer before the last sync", |put| {
            let mut done = one_by_one(put.parts());
            done.insert(done.len() - 1, Answer);
            done
        }),
        ("only the first sector synced", |put| {
            let mut done: Vec<Do> = put.parts().into_iter().map(Write).collect();
            done.insert(1, Sync);
            then_answer(done)
        }),
        ("never synced", |put| {
            then_answer(put.parts().into_iter().map(Write).collect())
        }),
        ("the last record of a burst left out", |put| {
            let mut parts = records(put);
            parts.truncate(parts.len().saturating_sub(1).max(1));
            then_answer(one_by_one(parts))
        }),
    ];

    /// Each does what no promise allows, though nothing is lost by it.
    const ODD: [(&str, Way); 3] = [
        ("half a record to a write", |put| {
            let half = |put: &Put, from: usize| Put {
                at: put.at + from,
                bytes: put.bytes[from..from + RECORD / 2].to_vec(),
            };
            let halves = records(put)
                .into_iter()
                .flat_map(|r| [half(&r, 0), half(&r, RECORD / 2)]);
            then_answer(one_by_one(halves.collect()))
        }),
        ("a record written twice", |put| {
            let twice = records(put).into_iter().flat_map(|r| [r.clone(), r]);
            then_answer(one_by_one(twice.collect()))
        }),
        ("an answer held back", |put| one_by_one(put.parts())),
    ];

    fn call(name: &str, fd: i64, at: usize, bytes: &[u8]) -> Call {
        Call {
            name: name.to_string(),
            fd,
            count: bytes.len() as i64,
            offset: at as i64,
            result: bytes.len() as i64,
            bytes: bytes.to_vec(),
            ..Call::default()
        }
    }

    fn opened(path: &str, fd: i64) -> Call {
        Call {
            path: path.to_string(),
            result: fd,
            ..call("open", fd, 0, b"")
        }
    }

    /// The calls of a program over these steps, from its start to the end of its input.
    fn calls_of(steps: &[Step], way: Way) -> Vec<Call> {
        let mut calls = vec![
            opened(PATH, 3),
            call("fdatasync", 3, 0, b""),
            opened("/lab", 4),
            call("fsync", 4, 0, b""),
            call("write", 1, 0, b"restore 0 0\n"),
        ];
        for step in steps {
            let mut read = call("read", 0, 0, b"");
            read.result = step.sent.len() as i64 + 1;
            calls.push(read);
            let answer = step.answer.as_ref().map(|a| format!("{a}\n"));
            let done = step.put.as_ref().map_or(vec![Answer], way);
            for what in done {
                match (what, &answer) {
                    (Write(put), _) => calls.push(call("pwrite", 3, put.at, &put.bytes)),
                    (Sync, _) => calls.push(call("fdatasync", 3, 0, b"")),
                    (Answer, Some(line)) => calls.push(call("write", 1, 0, line.as_bytes())),
                    (Answer, None) => {}
                }
            }
        }
        calls.push(call("read", 0, 0, b""));
        calls
    }

    /// Steps with bursts over a file that has some records and zeros behind them.
    fn played(seed: u64) -> Played {
        let mut rng = Rng::new(seed);
        let forms = Forms {
            gaps: true,
            bursts: true,
        };
        let count = rng.between(1, 12) as usize;
        let file = Played::with(&mut rng, b"", count, forms).after;
        let file = from_before(&mut rng, &file);
        let loose = rng.pick(&[0, 1, 63]);
        let before = [file, vec![0; loose]].concat();
        Played::with(&mut rng, &before, 50, forms)
    }

    /// Some of them, each with a burst over three sectors at least.
    fn runs() -> Vec<Played> {
        let is_long = |put: &Put| put.parts().len() > 2;
        let has_long = |played: &Played| puts(&played.steps).into_iter().any(is_long);
        let runs: Vec<Played> = (0..60).map(played).filter(has_long).take(6).collect();
        assert_eq!(runs.len(), 6);
        runs
    }

    /// The calls up to a kill at one of them, of which so many bytes were moved.
    fn killed(calls: &[Call], n: usize, moved: usize) -> Vec<Call> {
        let mut done = calls[..n].to_vec();
        if calls[n].name.ends_with("write") {
            let last = &calls[n];
            let bytes = &last.bytes[..moved.min(last.bytes.len())];
            done.push(call(&last.name, last.fd, last.offset as usize, bytes));
        }
        done
    }

    /// What is left holds a front of the run, all that was answered with it, and restores to just that.
    fn assert_left(played: &Played, done: &[Call], disk: &Disk) -> Result<(), String> {
        let left = disk.shown().unwrap_or_default();
        let records = new_bytes(&played.before, &played.after, left)? / RECORD;
        let out = done.iter().filter(|c| c.name == "write" && c.fd == 1);
        let out: Vec<u8> = out.flat_map(|c| c.bytes.clone()).collect();
        let told = answered(&played.steps, &String::from_utf8_lossy(&out));
        let restored = played.before.len() / RECORD;
        holds(restored + told <= records, "what was answered is lost")?;
        let (number, at, state) = State::restore(left);
        match number {
            0 => holds(
                state.journal() == played.after[..RECORD * records],
                "another journal",
            ),
            _ => holds(at == records, "bad before its end"),
        }
    }

    /// Kills at every call, and power cuts behind them.
    fn losses(played: &Played, way: Way, rng: &mut Rng) -> Result<(), String> {
        let calls = calls_of(&played.steps, way);
        for n in 0..calls.len() {
            let some = rng.between(1, 600) as usize;
            for moved in [0, some, usize::MAX] {
                let done = killed(&calls, n, moved);
                let mut disk = Disk::new(Path::new(PATH));
                disk.copy(&played.before);
                disk.sync();
                disk.sync_name();
                disk.play(&done);
                assert_left(played, &done, &disk).map_err(|fault| format!("kill {n}: {fault}"))?;
                disk.lose_power(rng);
                assert_left(played, &done, &disk).map_err(|fault| format!("cut {n}: {fault}"))?;
            }
        }
        Ok(())
    }

    #[test]
    fn right_programs_keep_the_order() {
        let mut rng = Rng::new(1);
        for played in runs() {
            for (name, way) in RIGHT {
                let calls = calls_of(&played.steps, way);
                let seen = touches(&calls, Path::new(PATH), &played.steps);
                assert!(seen.is_ok(), "{name}: {seen:?}");
                assert_eq!(losses(&played, way, &mut rng), Ok(()), "{name}");
            }
        }
    }

    #[test]
    fn wrong_programs_are_found_by_their_calls() {
        let runs = runs();
        for (name, way) in LOSING.into_iter().chain(ODD) {
            for played in &runs {
                let calls = calls_of(&played.steps, way);
                let seen = touches(&calls, Path::new(PATH), &played.steps);
                assert!(seen.is_err(), "{name}");
            }
        }
    }

    #[test]
    fn wrong_programs_are_found_by_losses() {
        let (mut rng, runs) = (Rng::new(2), runs());
        for (name, way) in LOSING {
            let found = runs
                .iter()
                .any(|played| losses(played, way, &mut rng).is_err());
            assert!(found, "{name}");
        }
    }

    /// Each write and sync as it was made: where it can be broken off, and what is left then.
    #[test]
    fn touches_are_the_writes_and_syncs() {
        for played in runs() {
            let calls = calls_of(&played.steps, RIGHT[0].1);
            let touches = touches(&calls, Path::new(PATH), &played.steps).unwrap();
            let parts = puts(&played.steps).into_iter().flat_map(Put::parts);
            let parts: Vec<Put> = parts.collect();
            assert_eq!(touches.len(), 2 * parts.len());
            for (i, (both, part)) in touches.chunks(2).zip(&parts).enumerate() {
                let step = step_at(&played.steps, part.at).unwrap();
                let touch = |name, turn, at, count| Touch {
                    name,
                    turn,
                    at,
                    count,
                    step,
                };
                assert_eq!(both[0], touch("pwrite", i + 1, part.at, part.bytes.len()));
                // The first is the start's.
                assert_eq!(both[1], touch("fdatasync", i + 2, part.end(), 0));
            }
            let mut file = played.before.clone();
            for part in &parts {
                for kept in [0, 1, part.bytes.len() - 1, part.bytes.len()] {
                    part.on(&mut file, kept);
                    let left = broken_off(&played.before, &played.after, part.at + kept);
                    assert!(left == file);
                }
            }
            assert!(file == played.after);
        }
    }
}
