//! Price curves with and without holes, and drafters that cost something beside them.
use crate::drafter::{Drafter, Rates};
use crate::drafter_values::{self, ONE};
use numbers::dice::Dice;

pub const INFINITY: u64 = 0x7ff0_0000_0000_0000;
pub const MINUS_ZERO: u64 = 0x8000_0000_0000_0000;

/// Whether a depth counts as deep among the shapes of the cases.
pub fn is_deep(gamma: u32) -> bool {
    gamma > 16
}

/// How large the prices of a case are.
const SCALES: &[f64] = &[1.0, 1.0, 1.0, 0.015625, 0.02, 1e-9, 1e6];

/// What a case is priced with.
pub struct Pricing {
    scale: f64,
    /// Whether its numbers have few digits, so that sums and quotients meet.
    few_digits: bool,
}

impl Pricing {
    pub fn random(dice: &mut Dice) -> Pricing {
        Pricing {
            scale: dice.pick(SCALES),
            few_digits: dice.once_in(3),
        }
    }

    /// A part of the scale: of 0 to 1, in eighths where there are few digits.
    fn part(&self, dice: &mut Dice) -> f64 {
        let steps = if self.few_digits { 8 } else { 1 << 20 };
        self.scale * dice.between(0, steps) as f64 / steps as f64
    }

    /// So many prices: mostly rising, at times level, falling or of any size.
    pub fn curve(&self, count: usize, dice: &mut Dice) -> Vec<u64> {
        let shape = dice.below(12);
        let slope = self.part(dice) / dice.pick(&[1.0, 4.0, 16.0, 64.0]);
        let mut price = self.scale / dice.pick(&[1.0, 2.0, 8.0]) + self.part(dice);
        let mut curve = Vec::new();
        for _ in 0..count {
            curve.push(price.to_bits());
            match shape {
                0 => {}
                1..=5 => price += slope,
                6 | 7 => price += self.part(dice) / 16.0,
                8 => price += slope * dice.pick(&[0.0, 0.0, 1.0]),
                9 => price = (price - self.part(dice) / 8.0).max(0.0),
                10 => price = self.part(dice),
                _ => price = f64::from_bits(drafter_values::float_up_to(9, dice)),
            }
        }
        curve
    }

    /// A drafter of any kind whose passes cost a part of the prices; at times one of any size.
    pub fn drafter(&self, dice: &mut Dice) -> (Drafter, Rates) {
        if dice.once_in(12) {
            let rates = Rates {
                peak: drafter_values::rate(dice),
                bw: drafter_values::rate(dice),
                kv_delta: dice.pick(drafter_values::SPECIALS),
            };
            return (drafter_values::drafter(dice), rates);
        }
        let bw = if self.few_digits { 1u64 << 40 } else { 3 << 38 } as f64;
        let peak = bw * dice.pick(&[1.0, 4.0, 512.0]);
        let rates = Rates {
            peak: peak.to_bits(),
            bw: bw.to_bits(),
            kv_delta: dice.pick(&[0, MINUS_ZERO, INFINITY, ONE]),
        };
        (self.drafter_at(bw, dice), rates)
    }

    fn drafter_at(&self, bw: f64, dice: &mut Dice) -> Drafter {
        // parameters whose streaming takes a part of the scale
        let less = dice.pick(&[1.0, 4.0, 16.0, 64.0]);
        let streamed = |dice: &mut Dice| self.part(dice) / less * bw / 2.0;
        match dice.below(8) {
            0 => Drafter::Fraction { frac: 0 },
            1 => Drafter::Fraction {
                frac: (self.part(dice) / self.scale / less).to_bits(),
            },
            2 | 3 => Drafter::BlockParallel {
                params: streamed(dice).to_bits(),
                block: dice.below(17) as u32,
            },
            _ => Drafter::Autoregressive {
                dense_params: streamed(dice).to_bits(),
                expert_params: (streamed(dice) / 8.0).to_bits(),
                num_experts: dice.below(257) as u32,
                experts_per_tok: dice.below(9) as u32,
                shared_experts: dice.below(3) as u32,
            },
        }
    }
}

/// Holes: at the first, the last or the one behind the first depth, at all, at all but one or two, or
/// anywhere.
pub fn put_holes(curve: &mut [u64], dice: &mut Dice) {
    if curve.is_empty() {
        return;
    }
    let last = curve.len() - 1;
    match dice.below(8) {
        0 => curve[0] = INFINITY,
        1 => curve[last] = INFINITY,
        2 => curve[1.min(last)] = INFINITY,
        3 if dice.once_in(4) => curve.fill(INFINITY),
        3 | 4 => {
            let kept = [0; 2].map(|_| dice.between(0, last));
            let prices = kept.map(|g| curve[g]);
            curve.fill(INFINITY);
            for (g, price) in kept.into_iter().zip(prices) {
                curve[g] = price;
            }
        }
        _ => {
            for price in curve.iter_mut() {
                if dice.once_in(3) {
                    *price = INFINITY;
                }
            }
        }
    }
}

/// Holes at the depths whose bits are set in a pattern.
pub fn put_pattern(curve: &mut [u64], pattern: u32) {
    for (g, price) in curve.iter_mut().enumerate() {
        if pattern >> g & 1 == 1 {
            *price = INFINITY;
        }
    }
}

/// The loaded experts of so many entries: they rise less and less; at times of any size.
pub fn loaded(entries: usize, dice: &mut Dice) -> Vec<u64> {
    if dice.once_in(12) {
        return (0..entries)
            .map(|_| drafter_values::float_up_to(6, dice))
            .collect();
    }
    let most = dice.between(1, 256) as f64;
    let half = dice.between(1, 16) as f64;
    let at = |m: usize| most * m as f64 / (m as f64 + half);
    (0..entries).map(|m| at(m).to_bits()).collect()
}
