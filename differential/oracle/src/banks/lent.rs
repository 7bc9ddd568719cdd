//! The three buffers that a bank is read into, as they are lent and as they are left.
use crate::banks::bank::Bank;

/// How many slots each buffer has.
#[derive(Clone, Copy, Debug, PartialEq, Eq, Hash)]
pub struct Room {
    pub commits: usize,
    pub signals: usize,
    pub curve: usize,
}

/// The most that a case may lend.
pub const LARGEST: Room = Room {
    commits: 512,
    signals: 16_384,
    curve: 80,
};

/// What a slot of commits holds before the call.
const COMMITS_BEFORE: u32 = 0xDEAD_BEEF;

/// The bits of what a slot of signals or of the curve holds before the call: 42.0.
const FLOAT_BEFORE: u64 = 0x4045_0000_0000_0000;

impl Room {
    /// Just what a bank of this size takes.
    pub fn exactly(rounds: usize, depth: usize) -> Room {
        Room {
            commits: rounds,
            signals: rounds * depth,
            curve: depth + 1,
        }
    }

    /// Each buffer cut to what a case may lend.
    pub fn capped(self) -> Room {
        Room {
            commits: self.commits.min(LARGEST.commits),
            signals: self.signals.min(LARGEST.signals),
            curve: self.curve.min(LARGEST.curve),
        }
    }
}

/// What the buffers hold, floats by their bits.
pub struct Buffers {
    commits: Vec<u32>,
    signals: Vec<u64>,
    curve: Vec<u64>,
}

impl Buffers {
    /// As they are lent.
    pub fn lent(room: Room) -> Buffers {
        Buffers {
            commits: vec![COMMITS_BEFORE; room.commits],
            signals: vec![FLOAT_BEFORE; room.signals],
            curve: vec![FLOAT_BEFORE; room.curve],
        }
    }

    /// The bank at the front of each; what follows stays.
    pub fn hold(&mut self, bank: &Bank) {
        self.commits[..bank.commits.len()].copy_from_slice(&bank.commits);
        self.signals[..bank.signals.len()].copy_from_slice(&bank.signals);
        self.curve[..bank.curve.len()].copy_from_slice(&bank.curve);
    }

    /// The sum of all words, and the sum of the sums up to each word, which tells places apart.
    pub fn sums(&self) -> [u64; 2] {
        let commits = self.commits.iter().map(|&commits| u64::from(commits));
        let floats = self.signals.iter().chain(&self.curve).copied();
        commits.chain(floats).fold([0, 0], |[first, second], word| {
            let first = first.wrapping_add(word);
            [first, second.wrapping_add(first)]
        })
    }
}

#[cfg(test)]
mod tests {
    use super::*;

    #[test]
    fn the_sums_tell_values_and_places_apart() {
        let sums = |commits: &[u32]| {
            let buffers = Buffers {
                commits: commits.to_vec(),
                signals: vec![],
                curve: vec![5],
            };
            buffers.sums()
        };
        assert_eq!(sums(&[1, 2]), [8, 12]);
        assert_eq!(sums(&[2, 1]), [8, 13]);
    }
}
