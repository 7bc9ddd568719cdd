//! Acceptance models with the positions beside them, draws, and banks' curves.
use crate::drawn::drafters::gamma;
use crate::drawn::floats::float;
use crate::turn::{Mixture, Turn};
use oracle::model::{Model, KINDS};
use oracle::plans::batches::chance;

/// A chance, or any float: all of them by the mixture, a few where good ones are damaged.
fn value(turn: &mut Turn) -> u64 {
    match turn.mixture {
        Mixture::Good => chance(&mut turn.dice),
        Mixture::Damaged if !turn.dice.once_in(12) => chance(&mut turn.dice),
        Mixture::Special if turn.dice.once_in(2) => chance(&mut turn.dice),
        _ => float(turn),
    }
}

fn values(count: usize, turn: &mut Turn) -> Vec<u64> {
    let is_good = turn.dice.once_in(2);
    let next = |turn: &mut Turn| match is_good {
        true => chance(&mut turn.dice),
        false => value(turn),
    };
    (0..count).map(|_| next(turn)).collect()
}

/// A model, its positions, gamma and draws.
pub fn model(turn: &mut Turn) -> Model {
    let positions = match turn.dice.below(16) {
        0 => turn.dice.between(62, 66),
        1 => turn.dice.between(0, 200),
        _ => turn.dice.between(0, 8),
    };
    let gamma = gamma(turn);
    let draws = match turn.dice.below(4) {
        0 => turn.dice.between(0, 3),
        _ => gamma.min(70) as usize,
    };
    Model {
        kind: turn.dice.pick(&KINDS),
        alpha: value(turn),
        gamma,
        positions: values(positions, turn),
        draws: values(draws, turn),
    }
}

/// A bank's curve with so many entries: 0 to 64, or any.
pub fn curve(count: usize, turn: &mut Turn) -> Vec<u64> {
    let is_good = turn.mixture == Mixture::Good || turn.dice.once_in(3);
    let mut sum = 0.0;
    let mut next = |turn: &mut Turn| {
        sum += f64::from_bits(chance(&mut turn.dice));
        match turn.dice.below(16) {
            0 if !is_good => 64f64.to_bits() + turn.dice.below(2),
            1..=4 if !is_good => value(turn),
            _ => f64::to_bits(sum).min(64f64.to_bits()),
        }
    };
    (0..count).map(|_| next(turn)).collect()
}

/// The depth of a bank: 1 to 64, at times past that.
pub fn depth(turn: &mut Turn) -> u32 {
    match turn.dice.below(12) {
        0 => turn.dice.pick(&[0, 63, 64, 65, u32::MAX]),
        1 => turn.dice.between(1, 64) as u32,
        _ => turn.dice.between(1, 9) as u32,
    }
}

/// So many as are used, one less, or more.
pub fn about(used: usize, turn: &mut Turn) -> usize {
    match turn.dice.below(12) {
        0 => used.saturating_sub(1),
        1 => turn.dice.between(0, used),
        2 | 3 => used + turn.dice.between(1, 3),
        _ => used,
    }
}
