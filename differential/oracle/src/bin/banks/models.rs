//! Acceptance models with draws: special values at every place, and random ones.
use numbers::dice::Dice;
use oracle::model::{Kind, Model, KINDS};

const ONE: u64 = 0x3ff0_0000_0000_0000;
pub const HALF: u64 = 0x3fe0_0000_0000_0000;

/// Chances, the ends of their range and of the floats in it among them.
pub const CHANCES: &[u64] = &[
    0x0000_0000_0000_0000, // zero
    0x0000_0000_0000_0001, // the smallest subnormal
    0x000f_ffff_ffff_ffff, // the largest subnormal
    0x0010_0000_0000_0000, // the smallest normal
    0x3fb9_9999_9999_999a, // 0.1
    HALF,
    0x3fec_cccc_cccc_cccd, // 0.9
    0x3fef_ffff_ffff_ffff, // the last below one
    ONE,
];

/// What is no chance.
pub const NO_CHANCES: &[u64] = &[
    0x3ff0_0000_0000_0001, // the first above one
    0x4000_0000_0000_0000, // two
    0x7fef_ffff_ffff_ffff, // the largest finite number
    0x7ff0_0000_0000_0000, // infinity
    0x7ff0_0000_0000_0001, // a signalling NaN
    0x7ff8_0000_0000_0000, // a quiet NaN
    0x7fff_ffff_ffff_ffff,
    0x8000_0000_0000_0000, // minus zero
    0x8000_0000_0000_0001, // the largest below zero
    0xbfe0_0000_0000_0000, // minus a half
    0xbff0_0000_0000_0000, // minus one
    0xfff0_0000_0000_0000, // minus infinity
    0xfff8_0000_0000_0000, // a NaN with its sign set
];

/// Every special value as alpha, as a position, as a draw that is used and as one that is not, under
/// every kind.
pub fn specials() -> Vec<Model> {
    let mut models = Vec::new();
    for &special in [CHANCES, NO_CHANCES].concat().iter() {
        for kind in KINDS {
            let of = |alpha, positions: &[u64], draws: &[u64]| Model {
                kind,
                alpha,
                gamma: 2,
                positions: positions.to_vec(),
                draws: draws.to_vec(),
            };
            models.push(of(special, &[HALF], &[0, 0]));
            models.push(of(HALF, &[special], &[0, 0]));
            models.push(of(HALF, &[ONE, special], &[0, HALF]));
            models.push(of(HALF, &[HALF], &[special, 0]));
            models.push(of(ONE, &[ONE, ONE], &[HALF, special]));
            models.push(of(HALF, &[HALF], &[HALF, special]));
        }
    }
    models
}

/// Every count of positions and every gamma at and beside their limits, under every kind, with as
/// many draws as gamma asks for and with one less.
pub fn limits() -> Vec<Model> {
    let mut models = Vec::new();
    for kind in KINDS {
        for gamma in [0, 1, 2, 63, 64, 65, 1000, u32::MAX] {
            let draws = gamma.min(65) as usize;
            for draws in [draws, draws.saturating_sub(1)] {
                models.push(all(kind, gamma, 0, draws));
                models.push(all(kind, gamma, 1, draws));
            }
        }
        for positions in [0, 1, 2, 63, 64, 65, 66] {
            models.push(all(kind, 64, positions, 64));
            models.push(all(kind, 1, positions, 1));
        }
    }
    models
}

/// Values of one and draws of a half: every draw is used.
fn all(kind: Kind, gamma: u32, positions: usize, draws: usize) -> Model {
    Model {
        kind,
        alpha: ONE,
        gamma,
        positions: vec![ONE; positions],
        draws: vec![HALF; draws],
    }
}

/// Any shape, mostly a small one, at times at or past a limit.
pub fn random(dice: &mut Dice) -> Model {
    let gamma = match dice.below(16) {
        0 => dice.between(62, 66) as u32,
        1 => dice.bits() as u32 >> dice.below(26),
        2..=4 => dice.between(0, 64) as u32,
        _ => dice.between(0, 6) as u32,
    };
    let positions = match dice.below(16) {
        0 => dice.between(62, 66),
        1 | 2 => dice.between(0, 64),
        _ => dice.between(0, 6),
    };
    with_shape(gamma, positions, dice)
}

/// One of a small shape.
pub fn small(dice: &mut Dice) -> Model {
    let (gamma, positions) = (dice.between(0, 4), dice.between(0, 3));
    with_shape(gamma as u32, positions, dice)
}

fn with_shape(gamma: u32, positions: usize, dice: &mut Dice) -> Model {
    let likely = dice.once_in(2);
    let mut model = Model {
        kind: dice.pick(&KINDS),
        alpha: chance(likely, dice),
        gamma,
        positions: (0..positions).map(|_| chance(likely, dice)).collect(),
        draws: Vec::new(),
    };
    model.draws = draws(&model, dice);
    match dice.below(12) {
        0 => model.alpha = no_chance(dice),
        1 => put_no_chance(&mut model.positions, dice),
        2 | 3 => put_no_chance(&mut model.draws, dice),
        4 => drop(model.draws.pop()),
        5 => model.draws.push(no_chance(dice)),
        _ => {}
    }
    model
}

/// As many draws as the model uses: each of them below its position's value, but for the last.
fn draws(model: &Model, dice: &mut Dice) -> Vec<u64> {
    let mut draws = Vec::new();
    for position in 0..model.gamma.min(70) as usize {
        let value = model.value(position);
        let below = value > 0 && !dice.once_in(8);
        draws.push(if below {
            draw_below(value, dice)
        } else {
            draw_from(value, dice)
        });
        if !below {
            break;
        }
    }
    draws
}

/// A draw below a value that is above zero: at times zero, or the next one below.
fn draw_below(value: u64, dice: &mut Dice) -> u64 {
    match dice.below(6) {
        0 => 0,
        1 => value - 1,
        _ => (f64::from_bits(value) * f64::from_bits(uniform(dice))).to_bits(),
    }
}

/// A draw that is not below the value: the value itself, the next one, or any draw.
fn draw_from(value: u64, dice: &mut Dice) -> u64 {
    match dice.below(4) {
        0 => value,
        1 => value + 1,
        _ => uniform(dice).max(value),
    }
}

/// A float of 0 to 1, one not included.
fn uniform(dice: &mut Dice) -> u64 {
    ((dice.bits() >> 11) as f64 / (1u64 << 53) as f64).to_bits()
}

/// Any float of 0 to 1, where it is likely not far from one.
pub fn chance(likely: bool, dice: &mut Dice) -> u64 {
    match dice.below(6) {
        0 => dice.pick(CHANCES),
        _ if likely => (1.0 - f64::from_bits(uniform(dice)) / 16.0).to_bits(),
        _ => uniform(dice),
    }
}

pub fn no_chance(dice: &mut Dice) -> u64 {
    match dice.below(4) {
        0 => dice.bits(),
        1 => ONE + dice.below(4),
        _ => dice.pick(NO_CHANCES),
    }
}

/// One of the values becomes what is no chance.
fn put_no_chance(values: &mut [u64], dice: &mut Dice) {
    if !values.is_empty() {
        let at = dice.between(0, values.len() - 1);
        values[at] = no_chance(dice);
    }
}
