//! The recorded sample: the same cases on every machine.
use crate::ledger::MOST_STEPS;
use crate::random::{full_second, full_seconds, full_workers, no_room, of_length};
use crate::sequence_case::SequenceCase;
use numbers::dice::Dice;

const SEED: u64 = 1;

/// The sentence that says the space.
pub fn space() -> String {
    format!(
        "space: sequences of up to 300 calls on one storage, with clocks that go back, end times of \
         any pattern, withdrawals up to 70 deep, storages and buffers too short, and with 4,096 \
         seconds, with 256 workers and with 1,000,000 steps in a second; seed {SEED}"
    )
}

/// One of each sort in turn, so that a beginning holds some of every sort.
pub fn recorded() -> Vec<SequenceCase> {
    let dice = &mut Dice::new(SEED);
    let mut sequences = Vec::new();
    for turn in 0..60 {
        sequences.push(no_room(dice));
        for _ in 0..4 {
            sequences.push(of_length(b's', dice.between(5, 40), dice));
        }
        if turn % 6 == 0 {
            sequences.push(full_workers(dice.between(5, 30), dice));
            sequences.push(full_seconds(dice.between(5, 20), dice));
        }
        if turn % 12 == 0 {
            sequences.push(of_length(b'l', 300, dice));
        }
    }
    sequences.push(full_second(MOST_STEPS + 1, dice));
    sequences.iter().map(|sequence| sequence.case()).collect()
}

#[cfg(test)]
mod tests {
    use super::*;
    use numbers::sampling::assert_steady;
    use std::collections::BTreeSet;

    #[test]
    fn the_sample_is_the_same_each_time_and_of_the_size_wanted() {
        assert_steady(recorded, 300..=400, 3_000_000);
        let cases = recorded();
        let longest = cases.iter().map(|case| case.refusals().count()).max();
        assert_eq!(longest, Some(300));
    }

    #[test]
    fn every_refusal_is_met_and_a_beginning_holds_every_sort() {
        let cases = recorded();
        let met: BTreeSet<u64> = cases.iter().flat_map(|case| case.refusals()).collect();
        assert_eq!(Vec::from_iter(met), [0, 16, 17, 18, 19, 21]);
        let kinds: BTreeSet<u8> = cases.iter().take(200).map(|case| case.0.kind).collect();
        assert_eq!(Vec::from_iter(kinds), b"flns");
    }

    /// The words of the four buffers' slots stand behind that of the storage's.
    #[test]
    fn each_buffer_of_the_series_alone_is_short_in_some_case() {
        let cases = recorded();
        for buffer in 1..=4 {
            let is_alone = |case: &&SequenceCase| {
                let slots = &case.0.input[..5];
                (1..=4).all(|other| other == buffer || slots[buffer] < slots[other])
            };
            assert!(cases.iter().filter(is_alone).count() > 2);
        }
    }
}
