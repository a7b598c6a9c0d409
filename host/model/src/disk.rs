//! A disk that can lose its power: what of one file is durable, and what is
//! pending, played over the calls that the shim wrote down. It is harsher than a
//! real one: nothing is durable before a sync of just that, in whatever order it
//! was written.

use crate::generate::Rng;
use crate::harness::{assert_file, Call};
use crate::model::RECORD;
use std::collections::BTreeMap;
use std::fs;
use std::path::{Path, PathBuf};

/// What reaches the disk whole or not at all.
pub const SECTOR: usize = 512;

/// What a descriptor is open on.
#[derive(Clone, Copy, PartialEq, Eq)]
enum Held {
    File,
    Folder,
}

/// One file, and its name in its folder.
pub struct Disk {
    path: PathBuf,
    folder: PathBuf,
    /// What the system shows while the power holds; none where there is no file.
    shown: Option<Vec<u8>>,
    is_named: bool,
    durable: Vec<u8>,
    /// What each sector held after each write since the last sync, the newest last.
    sectors: BTreeMap<usize, Vec<Vec<u8>>>,
    /// The file's lengths since the last sync.
    lengths: Vec<usize>,
}

impl Disk {
    /// No file is there. The path is the one that the programs are given.
    pub fn new(path: &Path) -> Disk {
        let folder = path.parent().filter(|f| !f.as_os_str().is_empty());
        Disk {
            path: path.to_path_buf(),
            folder: folder.unwrap_or(Path::new(".")).to_path_buf(),
            shown: None,
            is_named: false,
            durable: Vec::new(),
            sectors: BTreeMap::new(),
            lengths: Vec::new(),
        }
    }

    /// What the system shows; none where there is no file.
    pub fn shown(&self) -> Option<&[u8]> {
        self.shown.as_deref()
    }

    /// Whether a power cut could take something.
    pub fn is_pending(&self) -> bool {
        let is_unnamed = self.shown.is_some() && !self.is_named;
        is_unnamed || !self.sectors.is_empty() || !self.lengths.is_empty()
    }

    // What programs and people do.

    /// The calls of one run, from its start.
    pub fn play(&mut self, calls: &[Call]) {
        let mut held = BTreeMap::new();
        for call in calls.iter().filter(|c| c.result >= 0) {
            let on = held.get(&call.fd).copied();
            match (call.name.as_str(), on) {
                ("open", _) => {
                    if call.made && Path::new(&call.path) == self.path {
                        self.make();
                    }
                    held.remove(&call.fd);
                    held.extend(self.named_by(&call.path).map(|h| (call.fd, h)));
                }
                ("write" | "pwrite", Some(Held::File)) => {
                    assert_eq!(call.bytes.len() as i64, call.result, "cut off in the log");
                    self.write(call.offset as usize, &call.bytes);
                }
                ("ftruncate", Some(Held::File)) => self.cut(call.offset as usize),
                ("fdatasync" | "fsync", Some(Held::File)) => self.sync(),
                ("fsync", Some(Held::Folder)) => self.sync_name(),
                _ => {}
            }
        }
    }

    fn named_by(&self, path: &str) -> Option<Held> {
        match Path::new(path) {
            path if path == self.path => Some(Held::File),
            path if path == self.folder => Some(Held::Folder),
            _ => None,
        }
    }

    /// An empty file, whose name is not yet durable.
    pub fn make(&mut self) {
        *self = Disk::new(&self.path);
        self.shown = Some(Vec::new());
    }

    /// A file that was just copied there: nothing of it is durable.
    pub fn copy(&mut self, bytes: &[u8]) {
        self.make();
        for (i, page) in bytes.chunks(4096).enumerate() {
            self.write(4096 * i, page);
        }
    }

    pub fn write(&mut self, at: usize, bytes: &[u8]) {
        let (shown, end) = (self.shown.as_mut().expect("a file"), at + bytes.len());
        if shown.len() < end {
            shown.resize(end, 0);
            self.lengths.push(end);
        }
        shown[at..end].copy_from_slice(bytes);
        self.changed(at, end);
    }

    pub fn cut(&mut self, length: usize) {
        let shown = self.shown.as_mut().expect("a file");
        let before = shown.len();
        if before != length {
            shown.resize(length, 0);
            self.lengths.push(length);
            self.changed(length.min(before), length.max(before));
        }
    }

    /// The sectors of these bytes as they are now, each on its way to the disk by itself.
    fn changed(&mut self, from: usize, to: usize) {
        let shown = self.shown.as_ref().expect("a file");
        for sector in from / SECTOR..to.div_ceil(SECTOR) {
            let start = (SECTOR * sector).min(shown.len());
            let mut bytes = shown[start..shown.len().min(start + SECTOR)].to_vec();
            bytes.resize(SECTOR, 0);
            self.sectors.entry(sector).or_default().push(bytes);
        }
    }

    pub fn sync(&mut self) {
        self.durable = self.shown.clone().expect("a file");
        self.sectors.clear();
        self.lengths.clear();
    }

    pub fn sync_name(&mut self) {
        self.is_named = self.shown.is_some();
    }

    // What a power cut leaves.

    /// Each sector keeps what it held after any of its pending writes, or from before them; the length is any that the file had, so that
    /// zeros stand where it grew and the bytes were lost. A file whose name is not durable may be gone.
    pub fn lose_power(&mut self, rng: &mut Rng) {
        if self.shown.is_none() || (!self.is_named && rng.chance(50)) {
            *self = Disk::new(&self.path);
            return;
        }
        self.lengths.insert(0, self.durable.len());
        self.durable.resize(rng.pick(&self.lengths), 0);
        let percent = rng.pick(&[0, 20, 50, 80]);
        for (sector, versions) in &self.sectors {
            let newest = versions.len();
            let kept = match rng.chance(percent) {
                true => newest,
                false => rng.below(newest as u64) as usize,
            };
            let start = SECTOR * sector;
            let end = self.durable.len().min(start + SECTOR);
            if kept > 0 && start < end {
                let bytes = &versions[kept - 1][..end - start];
                self.durable[start..end].copy_from_slice(bytes);
            }
        }
        self.shown = Some(self.durable.clone());
        self.is_named = true;
        self.sync();
    }

    // The file itself.

    /// Makes the real file what the system shows.
    pub fn to_file(&self) {
        match &self.shown {
            Some(bytes) => fs::write(&self.path, bytes).unwrap(),
            None => fs::remove_file(&self.path).unwrap_or_default(),
        }
    }

    /// The real file is what the calls made of it, so that none was missed.
    pub fn assert_file(&self, about: &str) {
        match &self.shown {
            Some(bytes) => assert_file(&self.path, bytes, about),
            None => assert!(!self.path.exists(), "{about}: a file that no call made"),
        }
    }
}

/// The front of a journal that somebody was told of: no loss may touch it.
#[derive(Default)]
pub struct Told(pub Vec<u8>);

impl Told {
    pub fn add(&mut self, front: &[u8]) {
        let both = front.len().min(self.0.len());
        assert!(front[..both] == self.0[..both], "told two things");
        self.0.extend_from_slice(&front[both..]);
    }

    pub fn assert_kept(&self, disk: &Disk, about: &str) {
        let bytes = disk.shown().unwrap_or_default();
        let same = bytes.iter().zip(&self.0).take_while(|(a, b)| a == b);
        let (same, told) = (same.count(), self.0.len());
        assert!(same == told, "{about}: told of {told} bytes, {same} kept");
    }
}

/// How many bytes of a run a kill or a power cut left. `before` is the file at the run's start, `after` what the whole run leaves. The first bytes are the
/// new ones, and behind them all is as it was, or zeros where the file has grown: a hole with records behind it is a fault.
pub fn new_bytes(before: &[u8], after: &[u8], left: &[u8]) -> Result<usize, String> {
    let same = left.iter().zip(after).take_while(|(a, b)| a == b).count();
    let old = |at: usize| before.get(at).copied().unwrap_or(0);
    match (same..left.len()).find(|at| left[*at] != old(*at)) {
        None => Ok(same),
        Some(at) => {
            let [hole, behind] = [same, at].map(|at| at / RECORD);
            Err(format!(
                "a hole at record {hole}, bytes of record {behind} behind it"
            ))
        }
    }
}

#[cfg(test)]
mod tests {
    use super::*;
    use std::collections::BTreeSet;

    fn call(name: &str, fd: i64, at: usize, bytes: &[u8]) -> Call {
        Call {
            name: name.to_string(),
            fd,
            offset: at as i64,
            result: bytes.len() as i64,
            bytes: bytes.to_vec(),
            ..Call::default()
        }
    }

    fn open(path: &str, fd: i64, made: bool) -> Call {
        Call {
            name: "open".to_string(),
            path: path.to_string(),
            made,
            fd,
            result: fd,
            ..Call::default()
        }
    }

    /// All that a power cut can leave after these calls.
    fn left(calls: &[Call]) -> BTreeSet<Option<Vec<u8>>> {
        let mut rng = Rng::new(1);
        let mut seen = BTreeSet::new();
        for _ in 0..2_000 {
            let mut disk = Disk::new(Path::new("/lab/day"));
            disk.play(calls);
            disk.lose_power(&mut rng);
            assert!(!disk.is_pending());
            seen.insert(disk.shown().map(<[u8]>::to_vec));
        }
        seen
    }

    #[test]
    fn what_is_synced_stays() {
        let mut calls = vec![
            open("/lab/day", 3, true),
            open("/lab/", 4, false),
            call("fsync", 4, 0, b""),
        ];
        assert_eq!(left(&calls[..1]), [None, Some(vec![])].into());
        assert_eq!(left(&calls), [Some(vec![])].into());
        calls.push(call("pwrite", 3, 0, b"ab"));
        let both = [Some(vec![]), Some(vec![0, 0]), Some(b"ab".to_vec())];
        assert_eq!(left(&calls), both.into());
        calls.push(call("fdatasync", 3, 0, b""));
        assert_eq!(left(&calls), [Some(b"ab".to_vec())].into());
        // The other descriptor's sync says nothing of the bytes.
        calls[4].fd = 4;
        assert_eq!(left(&calls).len(), 3);
        calls[4].fd = 3;
        calls[4].result = -1;
        assert_eq!(left(&calls).len(), 3);
    }

    #[test]
    fn a_sector_is_whole() {
        let mut calls = vec![
            open("/lab/day", 3, true),
            call("pwrite", 3, 0, &[1; 600]),
            call("fdatasync", 3, 0, b""),
            open("/lab", 4, false),
            call("fsync", 4, 0, b""),
        ];
        assert_eq!(left(&calls), [Some(vec![1; 600])].into());
        calls.push(call("write", 3, 500, &[2; 24]));
        let with = |first: u8, second: u8| {
            let [a, b] = [first, second].map(|n| vec![n; 12]);
            Some([vec![1; 500], a, b, vec![1; 76]].concat())
        };
        let all = [with(1, 1), with(1, 2), with(2, 1), with(2, 2)];
        assert_eq!(left(&calls), all.into());
    }

    #[test]
    fn a_cut_is_pending_too() {
        let mut calls = vec![
            open("/lab/day", 3, true),
            call("pwrite", 3, 0, b"abc"),
            open("/lab", 4, false),
            call("fsync", 4, 0, b""),
            call("fsync", 3, 0, b""),
            call("ftruncate", 3, 1, b""),
        ];
        let cut = [b"abc".as_slice(), b"a", b"a\0\0"].map(|b| Some(b.to_vec()));
        assert_eq!(left(&calls), cut.into());
        calls.push(call("fdatasync", 3, 0, b""));
        assert_eq!(left(&calls), [Some(b"a".to_vec())].into());
    }

    #[test]
    #[should_panic(expected = "told of 2 bytes, 1 kept")]
    fn a_loss_is_seen() {
        let mut disk = Disk::new(Path::new("day"));
        disk.copy(b"ax");
        let mut told = Told::default();
        told.add(b"a");
        told.assert_kept(&disk, "before");
        told.add(b"ab");
        told.assert_kept(&disk, "now");
    }

    /// Records 1 to 4 of a run over one record and ten loose bytes.
    #[test]
    fn what_a_run_leaves_is_a_front() {
        let before = [vec![9; 64], vec![8; 10]].concat();
        let after = [vec![9; 64], vec![1; 64], vec![2; 64], vec![3; 64]].concat();
        let new = |left: &[u8]| new_bytes(&before, &after, left);
        assert_eq!(new(&before), Ok(64));
        for end in 64..=after.len() {
            let old = before.get(end..).unwrap_or_default();
            assert_eq!(new(&[&after[..end], old].concat()), Ok(end));
            // The file has grown, and the bytes are lost; the loose ones stay where nothing took their place.
            let mut grown = after[..end].to_vec();
            grown.resize(after.len(), 0);
            assert_eq!(new(&grown).is_ok(), !(64..74).contains(&end), "{end}");
        }
        for hole in 1..3 {
            let mut left = after.clone();
            left[64 * hole..64 * (hole + 1)].fill(0);
            let fault = new(&left).unwrap_err();
            assert!(
                fault.contains(&format!("a hole at record {hole}")),
                "{fault}"
            );
        }
        // A record from before is gone.
        assert!(new(&[vec![0; 64], after[64..].to_vec()].concat()).is_err());
    }
}
