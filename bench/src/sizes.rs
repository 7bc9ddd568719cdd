//! The sizes of the batches that the gates are measured over, and the batches of each.
use crate::batches::{sequences, Sequences};
use crate::dice::Dice;
use crate::report::grouped;

/// What grows, where the sizes rise: the sequences, or the slots of each.
pub const BY_SEQUENCES: &str = "a sequence of 8, by the sequences";
pub const BY_GAMMA: &str = "a depth of 64 sequences, by gamma";

/// The batches of one size: how many sequences, of how many slots each, how many batches a turn goes over, and whether prices have holes.
pub struct Size {
    pub n: usize,
    pub gamma: usize,
    count: usize,
    pub holes: bool,
}

impl Size {
    /// Those whose ratios have goals.
    pub fn of_the_goals(holes: bool) -> [Size; 3] {
        [(8, 4, 400), (64, 8, 60), (1_024, 64, 3)].map(|(n, gamma, count)| Size {
            n,
            gamma,
            count,
            holes,
        })
    }

    /// Those by which cost grows, with whole prices.
    pub fn growing(by: &str) -> Vec<Size> {
        let sizes: &[(usize, usize)] = match by {
            BY_SEQUENCES => &[(8, 8), (64, 8), (256, 8), (1_024, 8)],
            _ => &[(64, 4), (64, 16), (64, 64)],
        };
        let size = |&(n, gamma): &(usize, usize)| Size {
            n,
            gamma,
            count: (1 + 20_000 / (n * gamma)).min(400),
            holes: false,
        };
        sizes.iter().map(size).collect()
    }

    /// How many there are of what grows.
    pub fn grown(&self, by: &str) -> usize {
        match by {
            BY_SEQUENCES => self.n,
            _ => self.gamma,
        }
    }

    pub fn name(&self) -> String {
        let prices = if self.holes { "with holes" } else { "whole" };
        let n = grouped(self.n);
        format!("{n} sequences of {}, prices {prices}", self.gamma)
    }

    pub fn batches(&self) -> Vec<Sequences> {
        let dice = &mut Dice(7 + self.n as u64 * 3 + u64::from(self.holes));
        (0..self.count)
            .map(|_| sequences(self.n, self.gamma, self.holes, dice))
            .collect()
    }
}
