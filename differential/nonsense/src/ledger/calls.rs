//! What the calls that change the storage leave in its words, once there is room.
use super::changes::{self, change_of, HELD_WORKER, NEW_WORKER, NO_WORKER};
use super::layout::*;
use super::seconds::Step;
use super::workers::{self, Record};
use super::{seconds, series};

/// A worker's new record: its two numbers and the record.
pub type Put = (u64, u64, Record);

/// 16 for too few words; else 17 where a record is put for a new worker and 256 are held; then 19 or 18
/// for the second; 0 for nothing.
pub fn refusal(words: &[u64], second: u64, worker: Option<(u64, u64)>) -> u64 {
    if words.len() < ROOM {
        return 16;
    }
    let is_full = held(words, WORKERS_WORD, WORKERS_MOST) == WORKERS_MOST;
    if worker.is_some_and(|(a, b)| is_full && workers::record(words, a, b).is_none()) {
        return 17;
    }
    match seconds::steps(words, second) {
        Some(steps) if steps >= STEPS_MOST => 19,
        None if held(words, SECONDS_WORD, SECONDS_MOST) == SECONDS_MOST => 18,
        _ => 0,
    }
}

/// A plan that is not refused: its step, the record of its worker if it has one, and the change.
pub fn plan(words: &mut [u64], step: Step, put: Option<Put>) {
    let past = put.and_then(|(a, b, _)| workers::record(words, a, b));
    seconds::add(words, step);
    let worker = match put {
        None => [NO_WORKER, 0, 0, 0, 0, 0],
        Some((a, b, record)) => {
            workers::put(words, a, b, record);
            match past {
                None => [NEW_WORKER, a, b, 0, 0, 0],
                Some(past) => [HELD_WORKER, a, b, past.width, past.rounds, past.stall],
            }
        }
    };
    changes::keep(words, change_of(Some(step), worker));
}

/// The bits of a worker's stall, cleared; of one that is not held 0, and no change.
pub fn collect(words: &mut [u64], a: u64, b: u64) -> u64 {
    let Some(past) = workers::record(words, a, b) else {
        return 0;
    };
    workers::put(words, a, b, Record { stall: 0, ..past });
    let Record {
        width,
        rounds,
        stall,
    } = past;
    let worker = [HELD_WORKER, a, b, width, rounds, stall];
    changes::keep(words, change_of(None, worker));
    stall
}

/// 21 where nothing can be withdrawn, else 0.
pub fn withdraw(words: &mut [u64]) -> u64 {
    if words[CHANGES_WORD] == 0 {
        return 21;
    }
    changes::take_back(words);
    0
}

pub use series::{day_figure, samples};

#[cfg(test)]
mod tests {
    use super::*;
    use numbers::dice::Dice;

    /// Whatever stands, a plan and a collection that are withdrawn leave the words as they were.
    #[test]
    fn a_withdrawal_takes_the_newest_change_back() {
        let mut words = vec![0; ROOM];
        let mut dice = Dice::new(1);
        let mut before = Vec::new();
        for _ in 0..40 {
            before.push(words.clone());
            let (a, b) = (dice.below(3), dice.below(3));
            let record = Record {
                width: dice.below(9),
                rounds: dice.below(9),
                stall: dice.bits(),
            };
            let put = dice.once_in(2).then_some((a, b, record));
            let step = [dice.below(9), dice.below(90), dice.below(9), dice.below(90)];
            plan(&mut words, step, put);
            if workers::record(&words, a, b).is_some() {
                before.push(words.clone());
                collect(&mut words, a, b);
            }
        }
        for before in before.iter().rev().take(64) {
            assert_eq!(withdraw(&mut words), 0);
            let [counts, held] = [before, &words].map(|words| (words[0], words[1]));
            assert_eq!(counts, held);
            assert_eq!(before[worker_at(0)..], words[worker_at(0)..]);
        }
        let available = held(&words, CHANGES_WORD, CHANGES_MOST);
        assert_eq!(available, 0);
        assert_eq!(withdraw(&mut words), 21);
    }

    #[test]
    fn counts_and_slots_stop_at_their_most() {
        let mut words = vec![0; ROOM];
        words[..4].fill(u64::MAX);
        assert_eq!(samples(&words).len(), SECONDS_MOST);
        assert_eq!(refusal(&words, 7, Some((1, 1))), 17);
        assert_eq!(refusal(&words, 7, Some((0, 0))), 18);
        // the newest is that in slot 62: a plan of second 0, of which the last row is looked at first
        words[change_at(62) + PLANNED] = 1;
        words[second_at(SECONDS_MOST - 1) + DRAFTS] = 9;
        assert_eq!(withdraw(&mut words), 0);
        assert_eq!(words[..4], [4_095, u64::MAX, 63, 62]);
        assert_eq!(words[second_at(SECONDS_MOST - 1) + DRAFTS], 0);
    }

    /// A change that names a worker which 256 others leave no row for: the withdrawal counts as used.
    #[test]
    fn a_record_that_has_no_row_is_dropped() {
        let mut words = vec![0; ROOM];
        (words[WORKERS_WORD], words[CHANGES_WORD], words[SLOT_WORD]) = (256, 5, 1);
        for row in 0..WORKERS_MOST {
            words[worker_at(row)] = row as u64;
        }
        let before = words.clone();
        words[change_at(0) + KIND..=change_at(0) + WORKER_B].copy_from_slice(&[HELD_WORKER, 9, 9]);
        assert_eq!(withdraw(&mut words), 0);
        assert_eq!(words[..4], [0, 256, 4, 0]);
        assert_eq!(words[4..], before[4..]);
    }

    #[test]
    fn sums_stop_at_their_ends() {
        let mut words = vec![0; ROOM];
        words[SECONDS_WORD] = 1;
        words[second_at(0)..second_at(1)].copy_from_slice(&[5, u64::MAX - 1, 3, 2, 7]);
        plan(&mut words, [5, 9, 9, 6], None);
        assert_eq!(words[second_at(0)..second_at(1)], [5, u64::MAX, 12, 8, 8]);
        (
            words[second_at(0) + SEQUENCES],
            words[second_at(0) + COMMITTED],
        ) = (4, 5);
        assert_eq!(withdraw(&mut words), 0);
        let row = [5, u64::MAX - 9, 0, 0, 7];
        assert_eq!(words[second_at(0)..second_at(1)], row);
    }
}
