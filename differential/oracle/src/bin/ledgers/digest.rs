//! What can be read after a call, as two sums over its words.
use crate::afresh::Afresh;

/// What a slot of each of the series' buffers holds before the first call: 0xDEADBEEF, three times 42.0.
pub const BEFORE: [u64; 4] = [
    0xDEAD_BEEF,
    0x4045_0000_0000_0000,
    0x4045_0000_0000_0000,
    0x4045_0000_0000_0000,
];

/// The sum of the words, and the sum of the sums up to each word, which tells places apart.
#[derive(Clone, Copy, Debug, Default, PartialEq, Eq)]
pub struct Sums {
    pub first: u64,
    pub second: u64,
}

impl Sums {
    pub fn and(self, words: impl IntoIterator<Item = u64>) -> Sums {
        words.into_iter().fold(self, |sums, word| {
            let first = sums.first.wrapping_add(word);
            let second = sums.second.wrapping_add(first);
            Sums { first, second }
        })
    }
}

/// The buffers that the series is written to: seconds, mean drafts, mean batches, mean committed.
pub struct Buffers {
    slots: [Vec<u64>; 4],
}

impl Buffers {
    pub fn lent(slots: [usize; 4]) -> Buffers {
        let lent = |buffer: usize| vec![BEFORE[buffer]; slots[buffer]];
        Buffers {
            slots: [lent(0), lent(1), lent(2), lent(3)],
        }
    }

    /// Writes the series to the fronts, and answers the refusal and the number of seconds: 16 where
    /// a buffer is too short.
    fn hold(&mut self, held: &Afresh) -> [u64; 2] {
        let count = held.series.len();
        if self.slots.iter().any(|buffer| buffer.len() < count) {
            return [16, 0];
        }
        for (at, sample) in held.series.iter().enumerate() {
            self.slots[0][at] = sample.second;
            self.slots[1][at] = sample.mean_draft.to_bits();
            self.slots[2][at] = sample.mean_decode_batch.to_bits();
        }
        let committed = held.mean_committed();
        self.slots[3][..count].copy_from_slice(&committed);
        [0, count as u64]
    }

    /// The words of each buffer's front and the one behind it.
    fn fronts(&self, count: u64) -> Vec<u64> {
        let front = |buffer: &Vec<u64>| {
            let end = buffer.len().min(count as usize + 1);
            buffer[..end].to_vec()
        };
        self.slots.iter().flat_map(front).collect()
    }
}

/// The sums of all that can be read of a ledger.
pub fn of_held(held: &Afresh, available: u64, buffers: &mut Buffers) -> Sums {
    let [seconds, workers] = [held.series.len() as u64, held.workers_held as u64];
    let [refusal, count] = buffers.hold(held);
    let records = held.records.iter().flat_map(|record| match *record {
        Some((width, rounds, stall)) => [0, 1, width.into(), rounds.into(), stall.to_bits()],
        None => [0; 5],
    });
    Sums::default()
        .and([0, seconds, 0, workers, 0, available])
        .and([refusal, count])
        .and(buffers.fronts(count))
        .and([0, held.day_figure()])
        .and(records)
}

/// The same of a storage that is too short: every reading is refused.
pub fn of_short_storage(workers: usize, buffers: &Buffers) -> Sums {
    let refused = [16, 0];
    let worker = [16, 0, 0, 0, 0];
    Sums::default()
        .and([refused; 4].concat())
        .and(buffers.fronts(0))
        .and(refused)
        .and(worker.repeat(workers))
}

#[cfg(test)]
mod tests {
    use super::*;

    #[test]
    fn the_sums_tell_values_and_places_apart() {
        let sums = |words: [u64; 3]| {
            let Sums { first, second } = Sums::default().and(words);
            [first, second]
        };
        assert_eq!(sums([1, 2, 5]), [8, 12]);
        assert_eq!(sums([2, 1, 5]), [8, 13]);
        assert_eq!(sums([u64::MAX, 2, 0]), [1, 1]);
    }
}
