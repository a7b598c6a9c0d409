//! The checker design of source 000, written afresh for the comparison of speed: a queue of activates per rank, tables of the last
//! command per bank, group and rank, times in picoseconds, and a floating division wherever a gap is brought to the controller's
//! clock. The gaps are document 01's. It has no journal, no take-back and no restore, names no gap, and keeps one last command per
//! rank, so it asks tRRD of the same bank too (document 01, 'Errors that look right').

use std::collections::VecDeque;

/// One DRAM cycle in picoseconds.
const CYCLE: u64 = 625;
const NEVER: u64 = u64::MAX;

pub struct Checker {
    gaps: [u64; 20],
    ratio: u64,
    controller_cycle: u64,
    groups: bool,
    group_size: usize,
    by_bank: Vec<Vec<u64>>,
    by_group: Vec<Vec<u64>>,
    by_rank: Vec<Vec<u64>>,
    by_command: Vec<u64>,
    activates: Vec<VecDeque<u64>>,
    now: u64,
}

impl Checker {
    pub fn new(ratio: u64, ranks: usize, mode: u64, gaps: &[u16; 20]) -> Checker {
        Checker {
            gaps: gaps.map(|gap| u64::from(gap) * CYCLE),
            ratio,
            controller_cycle: CYCLE * ratio,
            groups: mode != 0,
            group_size: if mode == 2 { 4 } else { 2 },
            by_bank: vec![vec![NEVER; 16 * ranks]; 8],
            by_group: vec![vec![NEVER; 8 * ranks]; 8],
            by_rank: vec![vec![NEVER; ranks]; 8],
            by_command: vec![NEVER; 8],
            activates: vec![VecDeque::new(); ranks],
            now: 0,
        }
    }

    /// A time in the controller's clock, rounded up.
    fn controller_time(&self, time: u64) -> u64 {
        if self.ratio == 1 {
            return time;
        }
        let cycles = time as f64 / self.controller_cycle as f64;
        cycles.ceil() as u64 * self.controller_cycle
    }

    fn after(&self, earliest: &mut u64, last: u64, gap: usize) {
        if last != NEVER {
            *earliest = (*earliest).max(last + self.controller_time(self.gaps[gap - 1]));
        }
    }

    /// The earliest cycle of a command.
    pub fn earliest(&self, kind: usize, rank: usize, bank: usize) -> u64 {
        let mut time = self.now;
        let at = rank * 16 + bank;
        let group = rank * 8 + bank / self.group_size;
        match kind {
            1 => self.activate(&mut time, rank, at),
            2 => self.column(&mut time, (2, 3), (rank, group, at)),
            3 => self.column(&mut time, (3, 2), (rank, group, at)),
            4 => {
                self.after(&mut time, self.by_bank[1][at], 4);
                self.after(&mut time, self.by_bank[2][at], 9);
                self.after(&mut time, self.by_bank[3][at], 13);
                self.after(&mut time, self.by_rank[4][rank], 16);
            }
            5 => {
                self.after(&mut time, self.by_rank[1][rank], 4);
                self.after(&mut time, self.by_rank[2][rank], 9);
                self.after(&mut time, self.by_rank[3][rank], 13);
            }
            6 => {
                self.after(&mut time, self.by_rank[5][rank], 15);
                self.after(&mut time, self.by_rank[6][rank], 17);
            }
            _ => {
                self.after(&mut time, self.by_bank[4][at], 14);
                self.after(&mut time, self.by_bank[7][at], 18);
                self.after(&mut time, self.by_rank[7][rank], 19);
            }
        }
        time / self.controller_cycle
    }

    fn activate(&self, time: &mut u64, rank: usize, at: usize) {
        self.after(time, self.by_bank[1][at], 1);
        self.after(time, self.by_rank[1][rank], 2);
        self.after(time, self.by_bank[4][at], 14);
        self.after(time, self.by_rank[5][rank], 15);
        self.after(time, self.by_rank[6][rank], 17);
        self.after(time, self.by_bank[7][at], 18);
        if self.activates[rank].len() >= 4 {
            self.after(time, self.activates[rank][0], 20);
        }
    }

    fn column(
        &self,
        time: &mut u64,
        (own, other): (usize, usize),
        (rank, group, at): (usize, usize, usize),
    ) {
        self.after(time, self.by_bank[1][at], 3);
        if self.groups {
            self.after(time, self.by_group[own][group], 6);
            self.after(time, self.by_rank[own][rank], 7);
        } else {
            self.after(time, self.by_rank[own][rank], 5);
        }
        if own == 3 {
            self.after(time, self.by_rank[other][rank], 8);
        } else if self.groups {
            self.after(time, self.by_group[other][group], 11);
            self.after(time, self.by_rank[other][rank], 12);
        } else {
            self.after(time, self.by_rank[other][rank], 10);
        }
    }

    /// Puts a command into the tables.
    pub fn insert(&mut self, kind: usize, rank: usize, bank: usize, cycle: u64) {
        let time = cycle * self.controller_cycle;
        self.by_bank[kind][rank * 16 + bank] = time;
        self.by_group[kind][rank * 8 + bank / self.group_size] = time;
        self.by_rank[kind][rank] = time;
        self.by_command[kind] = time;
        self.now = time + self.controller_cycle;
        if kind == 1 {
            self.activates[rank].push_back(time);
            if self.activates[rank].len() > 4 {
                self.activates[rank].pop_front();
            }
        }
    }

    /// Whether a command may stand at a cycle; if so it is put into the tables.
    pub fn offer(&mut self, kind: usize, rank: usize, bank: usize, cycle: u64) -> bool {
        if cycle < self.earliest(kind, rank, bank) {
            return false;
        }
        self.insert(kind, rank, bank, cycle);
        true
    }
}
