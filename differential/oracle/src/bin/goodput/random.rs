//! Random cases from a seed, without end.
use numbers::dice::Dice;
use numbers::word_case::WordCase;
use oracle::drafter_values::{float_up_to, ONE, SPECIALS};
use oracle::model::{Model, KINDS};
use oracle::plans::batch::Asked;
use oracle::plans::batches::{self, chance, Shape};
use oracle::plans::prices::{put_holes, Pricing};
use oracle::plans::{expectation, signal};

/// The sentence that says the space.
pub fn space(seed: u64) -> String {
    format!(
        "space: random signals, curves, models, banks' curves, batches of up to 1,025 sequences and \
         depths of up to 64 and past it, mostly few, expected values and costs; a third of the curves \
         with holes, all kinds of drafters, values out of range and short room among them; seed {seed}"
    )
}

/// Half are depths and costs, three eighths expected acceptance, an eighth signals and curves.
pub fn cases(seed: u64) -> impl Iterator<Item = WordCase> {
    let mut dice = Dice::new(seed);
    std::iter::repeat_with(move || case(Shape::random, &mut dice))
}

/// A case of a batch of some shape, or of a call without one.
pub fn case(shape: fn(&mut Dice) -> Shape, dice: &mut Dice) -> WordCase {
    match dice.below(16) {
        0..=3 => of_batch(shape(dice), Asked::Depth, dice),
        4..=7 => batches::random_priced(shape(dice), dice).case(),
        8 | 9 => of_batch(shape(dice), Asked::Expected, dice),
        10 | 11 => model(dice),
        12 | 13 => bank(dice),
        14 => curve(dice),
        _ => signal(dice),
    }
}

fn of_batch(shape: Shape, asked: Asked, dice: &mut Dice) -> WordCase {
    batches::random(shape, asked, dice).case(asked)
}

/// Confidences, most of them in 0..1.
fn signal(dice: &mut Dice) -> WordCase {
    let count = match dice.below(16) {
        0 => dice.between(0, 64),
        _ => dice.between(0, 8),
    };
    let confidence = |dice: &mut Dice| match dice.below(24) {
        0 => dice.pick(SPECIALS),
        1 => dice.bits(),
        2 => (f64::from_bits(float_up_to(2, dice)) - 1.0).to_bits(),
        _ => chance(dice),
    };
    let signal: Vec<u64> = (0..count).map(|_| confidence(dice)).collect();
    let length = match dice.below(24) {
        0 => dice.pick(&[0, 63, 64, 65, u64::MAX]),
        1 => count as u64 + 1,
        2 => dice.between(0, count) as u64,
        _ => count as u64,
    };
    signal::survival_chain(&signal, length)
}

fn curve(dice: &mut Dice) -> WordCase {
    let curve = |dice: &mut Dice| {
        let mut curve = Pricing::random(dice).curve(dice.between(0, 9), dice);
        if dice.once_in(3) {
            put_holes(&mut curve, dice);
        }
        curve
    };
    let [roofline, measured] = [0; 2].map(|_| curve(dice));
    let gamma = match dice.below(24) {
        0 => dice.pick(&[64, 65, u64::MAX - 1, u64::MAX]),
        _ => dice.between(0, 9) as u64,
    };
    signal::curve(&roofline, &measured, dice.once_in(2), gamma)
}

fn gamma(dice: &mut Dice) -> u32 {
    match dice.below(32) {
        0 => dice.pick(&[0, 63, 64, 65, u32::MAX]),
        1 => dice.between(0, 64) as u32,
        _ => dice.between(0, 8) as u32,
    }
}

fn sequences(dice: &mut Dice) -> u32 {
    match dice.below(32) {
        0 => dice.pick(&[0, 1023, 1024, 1025, u32::MAX]),
        _ => dice.between(0, 1024) as u32,
    }
}

/// Mostly just enough, at times more, or one slot less.
fn room(gamma: u32, dice: &mut Dice) -> usize {
    let enough = gamma.min(70) as usize + 1;
    match dice.below(24) {
        0 => enough - 1,
        1..=4 => enough + dice.between(1, 3),
        _ => enough,
    }
}

fn model(dice: &mut Dice) -> WordCase {
    let gamma = gamma(dice);
    let positions = match dice.below(32) {
        0 => dice.between(62, 66),
        _ => dice.between(0, 8),
    };
    let mut model = Model {
        kind: dice.pick(&KINDS),
        alpha: chance(dice),
        gamma,
        positions: (0..positions).map(|_| chance(dice)).collect(),
        draws: Vec::new(),
    };
    match dice.below(24) {
        0 => model.alpha = dice.pick(SPECIALS),
        1 if positions > 0 => model.positions[positions - 1] = dice.pick(SPECIALS),
        2 => model.alpha = ONE,
        _ => {}
    }
    expectation::of_model(&model, sequences(dice), room(gamma, dice))
}

/// A curve that rises by at most one a depth, as a bank's does, at times of any values.
fn bank(dice: &mut Dice) -> WordCase {
    let gamma = gamma(dice);
    let depth = match dice.below(24) {
        0 => dice.pick(&[0, 63, 64, 65, u32::MAX]),
        _ => dice.between(1, 9) as u32,
    };
    let used = gamma.min(depth).min(64) as usize + 1;
    let count = match dice.below(16) {
        0 => used - 1,
        1..=4 => used + dice.between(0, 3),
        _ => used,
    };
    let mut sum = 0.0;
    let mut next = |dice: &mut Dice| {
        sum += f64::from_bits(chance(dice));
        match dice.below(64) {
            0 => dice.pick(SPECIALS),
            1 => 64f64.to_bits() + dice.below(2),
            _ => f64::to_bits(sum),
        }
    };
    let mut curve: Vec<u64> = (0..count).map(|_| next(dice)).collect();
    if let Some(first) = curve.first_mut().filter(|_| !dice.once_in(8)) {
        *first = 0;
    }
    expectation::of_bank(&curve, depth, gamma, sequences(dice), room(gamma, dice))
}
