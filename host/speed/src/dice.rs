//! A small generator of numbers and commands; the same on every machine.

use rossinhiu::ffi::Command;

pub struct Dice(pub u64);

impl Dice {
    pub fn below(&mut self, n: u64) -> u64 {
        self.0 ^= self.0 << 13;
        self.0 ^= self.0 >> 7;
        self.0 ^= self.0 << 17;
        (self.0 >> 11) % n
    }

    /// A command of any kind, the usual ones more often.
    pub fn command(&mut self, ranks: u64, cycle: u64) -> Command {
        let kind = [
            1, 1, 1, 1, 1, 2, 2, 2, 2, 2, 2, 3, 3, 3, 3, 4, 4, 4, 7, 7, 5, 6,
        ];
        let kind = kind[self.below(22) as usize];
        let bank = if kind == 5 || kind == 6 {
            0
        } else {
            self.below(16)
        };
        Command {
            kind,
            rank: self.below(ranks),
            bank,
            cycle,
        }
    }
}
