//! Survival chains as they are lent, 64 slots each, one behind the other.
use crate::range::in_signed_range;
use numbers::word_case::{listed, NAN_BITS};

pub const SLOTS: usize = 64;

/// Rows of as many slots as the width says, which are given out to the chains in turn, from the first
/// again behind the last. What a row does not say is a NaN.
#[derive(Clone, Debug)]
pub struct Chains {
    /// The slots that are lent.
    pub slots: usize,
    pub width: usize,
    /// The rows' slots, one row behind the other, by their bits.
    pub rows: Vec<u64>,
}

impl Chains {
    /// A row for each chain, and no slot too many.
    pub fn of_rows(rows: &[Vec<u64>]) -> Chains {
        Chains {
            slots: rows.len() * SLOTS,
            width: rows.first().map_or(0, Vec::len),
            rows: rows.concat(),
        }
    }

    /// The bits in slot d of chain k.
    pub fn slot(&self, k: usize, d: usize) -> u64 {
        let rows = self.rows.len().checked_div(self.width).unwrap_or(0);
        if d < self.width && rows > 0 {
            self.rows[k % rows * self.width + d]
        } else {
            NAN_BITS
        }
    }

    /// Whether no length is above 64, and the slots up to gamma hold survivals.
    pub fn are_in_range(&self, lengths: &[u32], gamma: u32) -> bool {
        let is_survival = |bits| in_signed_range(bits, 0.0, 1.0);
        let mut chains = lengths.iter().enumerate();
        chains.all(|(k, &length)| {
            let used = length.min(gamma) as usize;
            length as usize <= SLOTS && (0..used).all(|d| is_survival(self.slot(k, d)))
        })
    }

    /// The chains as floats, each of its length.
    pub fn floats(&self, lengths: &[u32]) -> Vec<Vec<f64>> {
        let slot = |k, d| f64::from_bits(self.slot(k, d));
        let chain = |(k, &length)| (0..length as usize).map(|d| slot(k, d)).collect();
        lengths.iter().enumerate().map(chain).collect()
    }

    pub fn words(&self) -> Vec<u64> {
        let head = [self.slots as u64, self.width as u64];
        [&head, &listed(self.rows.iter().copied())[..]].concat()
    }
}

#[cfg(test)]
mod tests {
    use super::*;

    #[test]
    fn rows_are_given_out_in_turn() {
        let chains = Chains {
            slots: 3 * SLOTS,
            width: 2,
            rows: vec![1, 2, 3, 4],
        };
        assert_eq!([0, 1, 2].map(|k| chains.slot(k, 1)), [2, 4, 2]);
        assert_eq!(chains.slot(0, 2), NAN_BITS);
        assert_eq!(Chains::of_rows(&[]).slot(0, 0), NAN_BITS);
        assert!(chains.are_in_range(&[2, 64], 2));
        assert!(!chains.are_in_range(&[2, 65], 2) && !chains.are_in_range(&[3], 3));
    }
}
