//! Words of a storage changed, so that they are no longer what a planner wrote.
use super::storages::{second, worker};
use crate::ledger::layout::*;
use crate::ledger::workers;
use numbers::dice::Dice;

/// Words at and beside the limits of counts, slots and sums.
pub const WORDS: &[u64] = &[
    0,
    1,
    2,
    3,
    62,
    63,
    64,
    65,
    255,
    256,
    257,
    999_999,
    1_000_000,
    1_000_001,
    4_095,
    4_096,
    4_097,
    u32::MAX as u64 - 1,
    u32::MAX as u64,
    0x3ff0_0000_0000_0000,
    0x7fef_ffff_ffff_ffff,
    0x7ff0_0000_0000_0000,
    0x7ff8_0000_0000_0001,
    1 << 63,
    u64::MAX - 1,
    u64::MAX,
];

/// Other counts, and mostly a newest change that names what may be held.
pub fn stir(words: &mut [u64], dice: &mut Dice) {
    for word in &mut words[..4] {
        *word = match dice.below(4) {
            0 => dice.bits(),
            1 => dice.pick(WORDS),
            2 => dice.below(70),
            _ => *word,
        };
    }
    if dice.once_in(4) {
        return;
    }
    let newest = newest_at(words);
    words[newest + 3] = dice.below(3);
    words[newest + 4] = dice.below(4);
    if dice.once_in(2) {
        words[newest] = second(words, dice);
        (words[newest + 5], words[newest + 6]) = worker(words, dice);
    }
}

/// Values at and beside the limits of a record, one of them in the record of a worker that is held.
pub fn damage_record(words: &mut [u64], a: u64, b: u64, dice: &mut Dice) {
    let Some(mut record) = workers::record(words, a, b) else {
        return;
    };
    let most = u64::from(u32::MAX);
    let infinity = f64::INFINITY.to_bits();
    match dice.below(3) {
        0 => record.width = dice.pick(&[0, 63, 64, 65, most, u64::MAX]),
        1 => record.rounds = dice.pick(&[0, most - 2, most - 1, most, most + 1, u64::MAX]),
        _ => {
            record.stall = dice.pick(&[1, infinity - 1, infinity, infinity + 1, 1 << 63, u64::MAX])
        }
    }
    workers::put(words, a, b, record);
}

/// Where the newest change starts.
fn newest_at(words: &[u64]) -> usize {
    let next = held(words, SLOT_WORD, CHANGES_MOST - 1);
    change_at((next + CHANGES_MOST - 1) % CHANGES_MOST)
}

/// One word that is not as it was, or a key that stands twice or out of order.
pub fn damage(words: &mut [u64], dice: &mut Dice) {
    let newest = newest_at(words);
    let (second, worker) = (second(words, dice), worker(words, dice));
    let any = match dice.below(3) {
        0 => dice.bits(),
        1 => dice.below(5),
        _ => dice.pick(WORDS),
    };
    match dice.below(12) {
        0 => words[dice.between(0, 3)] = any,
        1 => words[newest] = second,
        2 => words[newest + PLANNED] = dice.below(3),
        3 | 4 => words[newest + KIND] = dice.below(4),
        5 => (words[newest + WORKER_A], words[newest + WORKER_B]) = worker,
        6 => words[newest + dice.between(0, CHANGE - 1)] = any,
        7 => words[second_at(dice.between(0, SECONDS_MOST - 1))] = second,
        8 => {
            let row = dice.between(0, WORKERS_MOST - 1);
            (words[worker_at(row)], words[worker_at(row) + 1]) = worker;
        }
        9 => words[second_at(dice.between(0, 9)) + dice.between(0, SECOND - 1)] = any,
        10 => words[worker_at(dice.between(0, 9)) + dice.between(0, WORKER - 1)] = any,
        _ => words[dice.between(0, ROOM - 1)] = any,
    }
}
