//! The series and the day figure, over the seconds among the words.
use super::layout::*;

/// A second held: itself, the bits of its mean draft by sequence, of its mean batch by step and of its mean
/// committed by sequence.
#[derive(Clone, Copy, Debug, PartialEq, Eq)]
pub struct Sample {
    pub second: u64,
    pub mean_draft: u64,
    pub mean_batch: u64,
    pub mean_committed: u64,
}

/// A sum divided once by a count, which is taken as 1 where it is 0; both rounded once to a float.
fn mean(sum: u64, count: u64) -> f64 {
    sum as f64 / count.max(1) as f64
}

pub fn samples(words: &[u64]) -> Vec<Sample> {
    let sample = |row: usize| {
        let at = second_at(row);
        let [second, drafts, sequences, committed, steps] =
            [0, 1, 2, 3, 4].map(|word| words[at + word]);
        Sample {
            second,
            mean_draft: mean(drafts, sequences).to_bits(),
            mean_batch: mean(sequences, steps).to_bits(),
            mean_committed: mean(committed, sequences).to_bits(),
        }
    };
    let rows = held(words, SECONDS_WORD, SECONDS_MOST);
    (0..rows).map(sample).collect()
}

/// The mean drafts added up in order and divided once by how many they are; 0.0 for none.
pub fn day_figure(words: &[u64]) -> f64 {
    let means = samples(words);
    if means.is_empty() {
        return 0.0;
    }
    let add = |sum: f64, sample: &Sample| sum + f64::from_bits(sample.mean_draft);
    means.iter().fold(0.0, add) / means.len() as f64
}
