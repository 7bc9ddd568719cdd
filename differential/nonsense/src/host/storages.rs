//! Storages of every mixture: words that no planner wrote, and words that one could have written.
use super::stirred::{damage, stir, WORDS};
use crate::ledger::calls;
use crate::ledger::layout::*;
use crate::ledger::workers::Record;
use crate::turn::{Mixture, MIXTURES};
use numbers::dice::Dice;

/// The most words beyond the room.
const MOST_BEYOND: usize = 8;

/// One storage of each mixture, which the calls of a block go on with.
pub struct Storages {
    words: [Vec<u64>; MIXTURES.len()],
}

impl Storages {
    pub fn none() -> Storages {
        Storages {
            words: Default::default(),
        }
    }

    pub fn draw(dice: &mut Dice) -> Storages {
        let mut words = MIXTURES.map(|mixture| {
            let beyond = dice.between(0, MOST_BEYOND);
            let mut words = vec![0; ROOM + beyond];
            match mixture {
                Mixture::Random => words.iter_mut().for_each(|word| *word = dice.bits()),
                Mixture::Special => words.iter_mut().for_each(|word| *word = dice.pick(WORDS)),
                Mixture::Damaged | Mixture::Good => plan_into(&mut words, dice),
            }
            words
        });
        for _ in 0..dice.between(1, 40) {
            damage(&mut words[Mixture::Damaged as usize], dice);
        }
        Storages { words }
    }

    /// The words of a mixture, stirred a little: another count, another newest change; in a good storage
    /// a call.
    pub fn of(&mut self, mixture: Mixture, dice: &mut Dice) -> &mut Vec<u64> {
        let words = &mut self.words[mixture as usize];
        match mixture {
            Mixture::Good => one_call(words, dice),
            Mixture::Damaged => damage(words, dice),
            Mixture::Random | Mixture::Special => {
                stir(words, dice);
                damage(words, dice);
            }
        }
        words
    }
}

/// Two numbers of a worker: of one that is held mostly, else near one or any.
pub fn worker(words: &[u64], dice: &mut Dice) -> (u64, u64) {
    if words.len() < ROOM {
        return (dice.below(4), dice.bits());
    }
    let rows = held(words, WORKERS_WORD, WORKERS_MOST).max(1);
    let at = worker_at(dice.between(0, rows - 1));
    let (a, b) = (words[at], words[at + 1]);
    match dice.below(8) {
        0 => (a, b.wrapping_add(1)),
        1 => (a.wrapping_sub(1), b),
        2 => (dice.below(4), dice.below(4)),
        3 => (dice.bits(), dice.bits()),
        _ => (a, b),
    }
}

/// A second: one that is held mostly, else near one or any.
pub fn second(words: &[u64], dice: &mut Dice) -> u64 {
    if words.len() < ROOM {
        return dice.below(100_000);
    }
    let rows = held(words, SECONDS_WORD, SECONDS_MOST).max(1);
    let row = match dice.below(3) {
        0 => rows - 1,
        _ => dice.between(0, rows - 1),
    };
    let second = words[second_at(row)];
    match dice.below(6) {
        0 => second.wrapping_add(1),
        1 => dice.bits() >> dice.below(64),
        _ => second,
    }
}

fn record(dice: &mut Dice) -> Record {
    Record {
        width: dice.below(65),
        rounds: dice.below(5),
        stall: (dice.below(1000) as f64 / 100.0).to_bits(),
    }
}

/// One that a planner could have written: ascending seconds and workers, at times as many as there may be,
/// then some calls.
fn plan_into(words: &mut [u64], dice: &mut Dice) {
    let many = dice.between(0, SECONDS_MOST);
    let rows = dice.pick(&[0, 1, 2, 5, many, SECONDS_MOST - 1, SECONDS_MOST]);
    let mut second = dice.below(1000);
    for row in 0..rows {
        let steps = dice.pick(&[1, 1, 2, 3, 999_999, 1_000_000]);
        let drafts = dice.below(640);
        let committed = dice.below(drafts + 1);
        let sums = [second, drafts, dice.between(1, 9) as u64, committed, steps];
        words[second_at(row)..second_at(row + 1)].copy_from_slice(&sums);
        second += dice.between(1, 900) as u64;
    }
    let many = dice.between(0, WORKERS_MOST);
    let workers = dice.pick(&[0, 1, 2, 5, many, WORKERS_MOST - 1, WORKERS_MOST]);
    for row in 0..workers {
        let Record {
            width,
            rounds,
            stall,
        } = record(dice);
        let kept = [row as u64 / 16, row as u64 % 16 * 2, width, rounds, stall];
        words[worker_at(row)..worker_at(row + 1)].copy_from_slice(&kept);
    }
    words[SECONDS_WORD] = rows as u64;
    words[WORKERS_WORD] = workers as u64;
    for _ in 0..dice.pick(&[0, 1, 3, 20, 70]) {
        one_call(words, dice);
    }
}

/// A plan, a collection or a withdrawal that is not refused.
fn one_call(words: &mut [u64], dice: &mut Dice) {
    let (a, b) = worker(words, dice);
    match dice.below(8) {
        0 => {
            calls::withdraw(words);
        }
        1 | 2 => {
            calls::collect(words, a, b);
        }
        _ => {
            let second = second(words, dice);
            let put = dice.once_in(2).then(|| (a, b, record(dice)));
            if calls::refusal(words, second, put.map(|_| (a, b))) == 0 {
                let sequences = dice.between(1, 9) as u64;
                let drafts = dice.below(64 * sequences);
                let step = [second, drafts, sequences, dice.below(drafts + 1)];
                calls::plan(words, step, put);
            }
        }
    }
}
