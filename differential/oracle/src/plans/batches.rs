//! Random batches, and the random numbers of the cases without one.
use crate::drafter::MOST_SEQUENCES;
use crate::drafter_values::{float_up_to, with_constant_loaded, HALF, ONE, SPECIALS};
use crate::plans::batch::{Asked, Batch};
use crate::plans::chains::{Chains, SLOTS};
use crate::plans::priced::{self, Priced};
use crate::plans::prices::{loaded, put_holes, Pricing, MINUS_ZERO};
use numbers::dice::Dice;

/// Survivals, the ends of their range among them.
const SURVIVALS: &[u64] = &[
    0,
    MINUS_ZERO,
    1,
    0x0010_0000_0000_0000, // the smallest normal
    HALF,
    ONE - 1,
    ONE,
];

/// How many sequences and how deep: mostly few, at times at or past a limit.
#[derive(Clone, Copy)]
pub struct Shape {
    pub n: usize,
    pub gamma: u32,
}

impl Shape {
    pub fn random(dice: &mut Dice) -> Shape {
        let n = match dice.below(4096) {
            0 if dice.once_in(8) => MOST_SEQUENCES + dice.between(0, 1),
            0 => dice.between(65, MOST_SEQUENCES),
            1..=16 => dice.between(9, 64),
            17..=200 => dice.between(9, 20),
            201..=300 => 0,
            _ => dice.between(1, 8),
        };
        let gamma = match dice.below(128) {
            0 => dice.pick(&[0, 63, 64, 65, u32::MAX]),
            1 | 2 => dice.between(17, 64) as u32,
            3..=10 => dice.between(9, 16) as u32,
            11..=14 => 0,
            _ => dice.between(1, 8) as u32,
        };
        Shape { n, gamma }
    }

    /// One of few sequences.
    pub fn small(dice: &mut Dice) -> Shape {
        Shape {
            n: dice.between(1, 5),
            gamma: dice.between(1, 5) as u32,
        }
    }
}

/// A float of 0 to 1.
fn uniform(dice: &mut Dice) -> f64 {
    (dice.bits() >> 11) as f64 / (1u64 << 53) as f64
}

/// A chance, at times one of the ends of its range or of few digits.
pub fn chance(dice: &mut Dice) -> u64 {
    match dice.below(12) {
        0 => 0,
        1 => ONE,
        2 => ONE - 1,
        3 => (dice.between(0, 4) as f64 / 4.0).to_bits(),
        _ => uniform(dice).to_bits(),
    }
}

/// A row of survivals: products of confidences, or of any order; at times all alike.
fn row(style: u64, width: usize, dice: &mut Dice) -> Vec<u64> {
    let mut product = 1.0;
    let mut next = |dice: &mut Dice| match style {
        0..=2 => {
            product *= 1.0 - uniform(dice) / 2.0;
            f64::to_bits(product)
        }
        3 => {
            product *= 1.0 - uniform(dice) / 16.0;
            f64::to_bits(product)
        }
        4 | 5 => {
            product *= dice.between(2, 4) as f64 / 4.0;
            f64::to_bits(product)
        }
        6 => (dice.between(0, 4) as f64 / 4.0).to_bits(),
        7 => dice.pick(SURVIVALS),
        _ => uniform(dice).to_bits(),
    };
    let mut row: Vec<u64> = (0..width).map(|_| next(dice)).collect();
    if dice.once_in(16) {
        let first = row.first().copied().unwrap_or(0);
        row.fill(first);
    }
    row
}

fn chains(n: usize, width: usize, dice: &mut Dice) -> Chains {
    let rows = match n {
        0..=8 if !dice.once_in(8) => n,
        9..=64 if dice.once_in(2) => n,
        _ => dice.between(1, n.clamp(1, 12)),
    };
    let style = dice.below(10);
    let rows: Vec<u64> = (0..rows).flat_map(|_| row(style, width, dice)).collect();
    let slots = n * SLOTS;
    Chains { slots, width, rows }
}

/// The chains' lengths: all of the width, or each its own.
fn lengths(n: usize, width: usize, dice: &mut Dice) -> Vec<u32> {
    let ragged = dice.once_in(2);
    let length = |_| match ragged {
        true => dice.between(0, width) as u32,
        false => width as u32,
    };
    (0..n).map(length).collect()
}

/// A batch in which nothing is refused, but for sizes that are passed; a third of the curves has holes.
pub fn whole(shape: Shape, dice: &mut Dice) -> Batch {
    let holes = |curve: &mut [u64], dice: &mut Dice| {
        if dice.once_in(3) {
            put_holes(curve, dice);
        }
    };
    with_holes(shape, holes, dice)
}

/// The same with holes of one's own.
pub fn with_holes(shape: Shape, put: impl Fn(&mut [u64], &mut Dice), dice: &mut Dice) -> Batch {
    let Shape { n, gamma } = shape;
    let pricing = Pricing::random(dice);
    let (drafter, rates) = pricing.drafter(dice);
    let depth = gamma.min(SLOTS as u32) as usize;
    let width = match dice.below(8) {
        0 => dice.between(0, depth),
        1 => (depth + dice.between(0, 2)).min(SLOTS),
        _ => depth,
    };
    let mut curve = pricing.curve(depth + 1, dice);
    put(&mut curve, dice);
    let mut loaded = match drafter.is_autoregressive() {
        true => loaded(n + 1, dice),
        false => Vec::new(),
    };
    with_constant_loaded(drafter, &mut loaded);
    Batch {
        drafter,
        rates,
        gamma,
        room: n,
        chains: chains(n, width, dice),
        lengths: lengths(n, width, dice),
        curve,
        loaded,
    }
}

/// One of the values becomes another.
pub fn put(values: &mut [u64], value: u64, dice: &mut Dice) {
    if !values.is_empty() {
        let at = dice.between(0, values.len() - 1);
        values[at] = value;
    }
}

/// One slot less, or more slots, which are not used.
pub fn lengthen(values: &mut Vec<u64>, dice: &mut Dice) {
    if dice.once_in(2) {
        values.pop();
    }
    for _ in 0..dice.between(0, 2) {
        values.push(dice.pick(SPECIALS));
    }
}

/// One thing that is not as it was.
pub fn change(batch: &mut Batch, dice: &mut Dice) {
    let special = dice.pick(SPECIALS);
    match dice.below(12) {
        0 => put(&mut batch.chains.rows, special, dice),
        1 => put(&mut batch.chains.rows, MINUS_ZERO, dice),
        2 => put(&mut batch.curve, special, dice),
        3 => put(&mut batch.loaded, special, dice),
        4 => lengthen(&mut batch.curve, dice),
        5 => lengthen(&mut batch.loaded, dice),
        6 => batch.rates.peak = special,
        7 => batch.rates.bw = special,
        8 => batch.chains.slots = (batch.chains.slots + dice.between(0, 66)).saturating_sub(2),
        9 => batch.room = (batch.room + dice.between(0, 4)).saturating_sub(2),
        10 if batch.n() > 0 => {
            let at = dice.between(0, batch.n() - 1);
            batch.lengths[at] = dice.pick(&[0, 1, 64, 65, u32::MAX]);
        }
        _ => batch.drafter = crate::drafter_values::drafter(dice),
    }
    with_constant_loaded(batch.drafter, &mut batch.loaded);
}

/// A batch for a question; an eighth of them with one thing changed.
pub fn random(shape: Shape, asked: Asked, dice: &mut Dice) -> Batch {
    let mut batch = whole(shape, dice);
    if asked == Asked::Expected {
        batch.room = batch.gamma.min(70) as usize + 1;
        batch.curve.clear();
        batch.loaded.clear();
    }
    if dice.once_in(8) {
        change(&mut batch, dice);
    }
    batch
}

/// Prices without a batch.
pub fn random_priced(shape: Shape, dice: &mut Dice) -> Priced {
    let batch = random(shape, Asked::Depth, dice);
    let is_total = dice.once_in(3);
    let verify = batch.curve.last().copied().unwrap_or(special_price(dice));
    let asked = match is_total {
        true => priced::Asked::Total { verify },
        false => priced::Asked::Best {
            expected: expected(batch.curve.len(), batch.n(), dice),
            curve: batch.curve,
        },
    };
    Priced {
        drafter: batch.drafter,
        rates: batch.rates,
        gamma: batch.gamma,
        n: batch.lengths.len() as u32,
        loaded: batch.loaded,
        asked,
    }
}

fn special_price(dice: &mut Dice) -> u64 {
    dice.pick(SPECIALS)
}

/// So many expected values of n sequences: mostly rising, at times of any size or order.
pub fn expected(count: usize, n: usize, dice: &mut Dice) -> Vec<u64> {
    let style = dice.below(6);
    let mut sum = 0.0;
    let mut next = |dice: &mut Dice| {
        let part = match style {
            0 => dice.between(0, 4) as f64 / 4.0,
            _ => uniform(dice),
        };
        sum += n as f64 * part;
        match style {
            5 => float_up_to(4, dice),
            4 => (part * 65536.0).to_bits(),
            _ => f64::to_bits(sum),
        }
    };
    let mut expected: Vec<u64> = (0..count).map(|_| next(dice)).collect();
    match dice.below(24) {
        0 => put(&mut expected, dice.pick(SPECIALS), dice),
        1 => put(&mut expected, 65536f64.to_bits() + dice.below(2), dice),
        2 => lengthen(&mut expected, dice),
        _ => {}
    }
    expected
}
