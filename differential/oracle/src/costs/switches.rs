//! Random records, settings of switching and the curves that a decision walks on.
use crate::costs::switching::{Record, Switch};
use crate::drafter_values::SPECIALS;
use numbers::dice::Dice;

pub const INFINITY: u64 = 0x7ff0_0000_0000_0000;
const HOUR: u64 = 0x414b_7740_0000_0000; // 3,600,000

/// Settings of a cost, in range and not.
pub const COSTS: &[u64] = &[0, 1, HOUR, HOUR - 1, HOUR + 1, 0x3ff0_0000_0000_0000];

pub const STEPS: &[Option<u32>] = &[
    None,
    None,
    Some(0),
    Some(1),
    Some(1),
    Some(2),
    Some(3),
    Some(64),
    Some(65),
    Some(u32::MAX - 1),
    Some(u32::MAX),
];

pub fn width(dice: &mut Dice) -> u32 {
    match dice.below(16) {
        0 => dice.pick(&[63, 64, 65, 66, 1000, u32::MAX]),
        1..=5 => dice.between(0, 64) as u32,
        _ => dice.between(0, 9) as u32,
    }
}

pub fn record(dice: &mut Dice) -> Record {
    let rounds = match dice.below(8) {
        0 => dice.pick(&[u32::MAX - 2, u32::MAX - 1, u32::MAX]),
        1 => dice.bits() as u32,
        _ => dice.between(0, 4) as u32,
    };
    let stall = match dice.below(8) {
        0 => dice.pick(SPECIALS),
        1 => dice.bits(),
        2 | 3 => 0,
        _ => (dice.below(10_000) as f64 / 1000.0).to_bits(),
    };
    Record {
        width: width(dice),
        rounds,
        stall,
    }
}

pub fn switch(dice: &mut Dice) -> Switch {
    let cooldown_rounds = match dice.below(8) {
        0 => dice.pick(&[u32::MAX - 1, u32::MAX]),
        1 => dice.bits() as u32,
        _ => dice.between(0, 5) as u32,
    };
    let cost_ms = match dice.below(16) {
        0 => dice.pick(SPECIALS),
        1..=3 => dice.pick(COSTS),
        4 => dice.below(HOUR),
        5..=7 => 0,
        _ => (dice.below(100_000) as f64 / 1000.0).to_bits(),
    };
    Switch {
        cooldown_rounds,
        max_step: dice.pick(STEPS),
        cost_ms,
    }
}

/// Prices and holes; at times none, too many, or one that is out of range.
pub fn curve(dice: &mut Dice) -> Vec<u64> {
    let length = match dice.below(32) {
        0 => dice.between(60, 67),
        1 => 0,
        2..=5 => dice.between(0, 64),
        _ => dice.between(1, 10),
    };
    let holes = dice.between(1, 4) as u64;
    let price = |dice: &mut Dice| match dice.once_in(holes) {
        true => (dice.below(100_000) as f64 / 10_000.0).to_bits(),
        false => INFINITY,
    };
    let mut curve: Vec<u64> = (0..length).map(|_| price(dice)).collect();
    if length > 0 && dice.once_in(8) {
        let at = dice.between(0, length - 1);
        curve[at] = dice.pick(SPECIALS);
    }
    curve
}
