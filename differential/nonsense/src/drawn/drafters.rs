//! Drafters, their rates and the loaded experts.
use crate::drawn::floats::{float, up_to};
use crate::turn::{Mixture, Turn};
use numbers::dice::Dice;
use oracle::drafter::{Drafter, Rates};
use oracle::drafter_values::{self, COUNTS};

/// A drafter as it crosses: its kind, its two sizes, its three counts. What its kind lacks is
/// anything.
#[derive(Clone, Copy, Debug)]
pub struct Crossing {
    pub kind: u32,
    pub p: f64,
    pub q: f64,
    pub x: u32,
    pub y: u32,
    pub z: u32,
}

impl Crossing {
    pub fn of(drafter: Drafter, dice: &mut Dice) -> Crossing {
        let words = drafter.words();
        let used = match drafter {
            Drafter::Fraction { .. } => [true, true, false, false, false, false],
            Drafter::Autoregressive { .. } => [true; 6],
            Drafter::BlockParallel { .. } => [true, true, false, true, false, false],
        };
        let mut word = |at: usize| if used[at] { words[at] } else { dice.bits() };
        Crossing {
            kind: word(0) as u32,
            p: f64::from_bits(word(1)),
            q: f64::from_bits(word(2)),
            x: word(3) as u32,
            y: word(4) as u32,
            z: word(5) as u32,
        }
    }
}

/// A count, by the mixture.
pub fn count(turn: &mut Turn) -> u32 {
    match turn.mixture {
        Mixture::Random => turn.dice.bits() as u32,
        Mixture::Special => turn.dice.pick(COUNTS),
        Mixture::Damaged if turn.dice.once_in(8) => turn.dice.pick(COUNTS),
        _ => turn.dice.below(300) as u32,
    }
}

/// Of any kind; all of its values at random or special, or all in their range but for damage.
pub fn drafter(turn: &mut Turn) -> Drafter {
    match turn.dice.below(3) {
        0 => Drafter::Fraction {
            frac: up_to(6, turn),
        },
        1 => Drafter::BlockParallel {
            params: up_to(18, turn),
            block: count(turn),
        },
        _ => Drafter::Autoregressive {
            dense_params: up_to(18, turn),
            expert_params: up_to(18, turn),
            num_experts: count(turn),
            experts_per_tok: count(turn),
            shared_experts: count(turn),
        },
    }
}

/// One in its range but for a special turn, so that what follows it in the order of refusals is met.
pub fn mostly_good(turn: &mut Turn) -> Drafter {
    match turn.mixture {
        Mixture::Good => drafter_values::drafter(&mut turn.dice),
        _ if turn.dice.once_in(3) => drafter(turn),
        _ => drafter_values::drafter(&mut turn.dice),
    }
}

/// The rates; kv_delta is of use to prices alone.
pub fn rates(turn: &mut Turn) -> Rates {
    let is_good = turn.mixture == Mixture::Good || !turn.dice.once_in(3);
    let rate = |turn: &mut Turn| match is_good {
        true => drafter_values::rate(&mut turn.dice),
        false => up_to(18, turn),
    };
    let [peak, bw] = [0; 2].map(|_| rate(turn));
    Rates {
        peak,
        bw,
        kv_delta: float(turn),
    }
}

/// The loaded experts of n sequences: n + 1 of them, or about as many.
pub fn loaded(n: usize, turn: &mut Turn) -> Vec<u64> {
    let n = n.min(2000);
    let count = match turn.dice.below(12) {
        0 => n,
        1 => turn.dice.between(0, n + 3),
        2 => n + 2,
        _ => n + 1,
    };
    let is_good = turn.mixture == Mixture::Good || turn.dice.once_in(2);
    let entry = |turn: &mut Turn| match is_good {
        true => drafter_values::float_up_to(6, &mut turn.dice),
        false => up_to(6, turn),
    };
    (0..count).map(|_| entry(turn)).collect()
}

/// How many sequences: mostly few, at times at or past the most.
pub fn sequences(turn: &mut Turn) -> u32 {
    let dice = &mut turn.dice;
    match dice.below(64) {
        0 => dice.pick(&[1023, 1024, 1025, 65_536, u32::MAX]),
        1 => dice.between(0, 200) as u32,
        2 if turn.mixture == Mixture::Random => dice.bits() as u32,
        _ => dice.between(0, 6) as u32,
    }
}

/// A depth: mostly small, at times at or past the most.
pub fn gamma(turn: &mut Turn) -> u32 {
    let dice = &mut turn.dice;
    match dice.below(16) {
        0 => dice.pick(&[0, 63, 64, 65, u32::MAX]),
        1 if turn.mixture == Mixture::Random => dice.bits() as u32,
        2 | 3 => dice.between(0, 64) as u32,
        _ => dice.between(0, 8) as u32,
    }
}
