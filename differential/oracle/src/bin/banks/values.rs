//! Acceptance models, in range or not, each with a position whose value is asked for.
use crate::models::{chance, no_chance, CHANCES, HALF, NO_CHANCES};
use numbers::dice::Dice;
use oracle::model::{Kind, Model, KINDS};

/// The most positions of a random model.
const MOST: usize = 70;

pub type Asked = (Model, u64);

/// Every special value as alpha and as a position, under every kind.
pub fn specials() -> Vec<Asked> {
    let mut asked = Vec::new();
    for &special in [CHANCES, NO_CHANCES].concat().iter() {
        for kind in KINDS {
            asked.push((model(kind, special, vec![HALF]), 0));
            asked.push((model(kind, HALF, vec![HALF, special]), 1));
        }
    }
    asked
}

/// Positions at and beside a list's end, and far past it.
pub fn limits() -> Vec<Asked> {
    let mut asked = Vec::new();
    for count in [0, 1, 2, 65] {
        let end = count as u64;
        for position in [end.saturating_sub(1), end, end + 1, 1 << 32, u64::MAX] {
            let positions = (1..=end).collect();
            asked.push((model(Kind::PerPosition, HALF, positions), position));
        }
    }
    asked
}

/// Any shape, mostly a small one.
pub fn random(dice: &mut Dice) -> Asked {
    let count = match dice.below(8) {
        0 => dice.between(0, MOST),
        _ => dice.between(0, 4),
    };
    let position = match dice.below(8) {
        0 => dice.bits() >> dice.below(64),
        1 | 2 => dice.between(0, 80) as u64,
        _ => dice.between(0, count) as u64,
    };
    let kind = dice.pick(&[
        Kind::PerPosition,
        Kind::PerPosition,
        Kind::Constant,
        Kind::Trace,
    ]);
    let alpha = value(dice);
    let positions = (0..count).map(|_| value(dice)).collect();
    (model(kind, alpha, positions), position)
}

/// A chance, or what is none.
fn value(dice: &mut Dice) -> u64 {
    match dice.below(4) {
        0 => no_chance(dice),
        _ => chance(false, dice),
    }
}

fn model(kind: Kind, alpha: u64, positions: Vec<u64>) -> Model {
    Model {
        kind,
        alpha,
        gamma: 0,
        positions,
        draws: Vec::new(),
    }
}
