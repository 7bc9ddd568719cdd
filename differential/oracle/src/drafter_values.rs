//! Values for drafters and their rates: special ones, and random ones.
use crate::drafter::Drafter;
use numbers::dice::Dice;

pub const ONE: u64 = 0x3ff0_0000_0000_0000;
pub const HALF: u64 = 0x3fe0_0000_0000_0000;
const MILLION: u64 = 0x412e_8480_0000_0000;
const BILLION: u64 = 0x41cd_cd65_0000_0000;
const MOST: u64 = 0x43ab_c16d_674e_c800; // 1e18

/// Floats that are in some range and not in others.
pub const SPECIALS: &[u64] = &[
    0,
    1,
    0x0010_0000_0000_0000, // the smallest normal
    HALF,
    ONE - 1,
    ONE,
    ONE + 1,
    MILLION,
    MILLION + 1,
    BILLION,
    BILLION + 1,
    MOST,
    MOST + 1,
    0x7fef_ffff_ffff_ffff, // the largest finite number
    0x7ff0_0000_0000_0000, // infinity
    0x7ff0_0000_0000_0001, // a signalling NaN
    0x7ff8_0000_0000_0000, // a quiet NaN
    0x8000_0000_0000_0000, // minus zero
    0x8000_0000_0000_0001, // the largest below zero
    0xbff0_0000_0000_0000, // minus one
    BILLION | 1 << 63,
    (BILLION + 1) | 1 << 63,
    0xfff0_0000_0000_0000, // minus infinity
    0xffff_ffff_ffff_ffff, // a NaN with its sign set
];

pub const COUNTS: &[u32] = &[0, 1, 2, 8, 64, 999_999, 1_000_000, 1_000_001, u32::MAX];

/// Where no expert is asked for, the Rust's argument is 0.0 at every batch: its list has to be
/// constant.
pub fn with_constant_loaded(drafter: Drafter, loaded: &mut [u64]) {
    let none = matches!(
        drafter,
        Drafter::Autoregressive {
            experts_per_tok: 0,
            ..
        }
    );
    if let (true, Some(&first)) = (none, loaded.first()) {
        loaded.fill(first);
    }
}

/// Of any kind, each value of any size in its range.
pub fn drafter(dice: &mut Dice) -> Drafter {
    match dice.below(5) {
        0 => Drafter::Fraction {
            frac: float_up_to(6, dice),
        },
        1 => Drafter::BlockParallel {
            params: float_up_to(18, dice),
            block: count(dice),
        },
        _ => Drafter::Autoregressive {
            dense_params: float_up_to(18, dice),
            expert_params: float_up_to(18, dice),
            num_experts: count(dice),
            experts_per_tok: count(dice),
            shared_experts: count(dice),
        },
    }
}

pub fn count(dice: &mut Dice) -> u32 {
    match dice.below(8) {
        0 => dice.pick(COUNTS),
        1 | 2 => dice.below(1_000_001) as u32,
        _ => dice.below(300) as u32,
    }
}

/// A float of 0 to a power of ten, of any size.
pub fn float_up_to(power: i32, dice: &mut Dice) -> u64 {
    let most = 10f64.powi(power).to_bits();
    match dice.below(12) {
        0 => 0,
        1 => most,
        2 => dice.below(most),
        3 => f64::to_bits(dice.below(1000) as f64),
        _ => {
            let part = dice.between(1, 1 << 30) as f64 / f64::from(1 << 30);
            let scale = 10f64.powi(dice.between(0, power as usize) as i32);
            (part * scale).to_bits()
        }
    }
}

/// A float of 1 to 1e18.
pub fn rate(dice: &mut Dice) -> u64 {
    match dice.below(12) {
        0 => ONE,
        1 => MOST,
        _ => float_up_to(18, dice).max(ONE),
    }
}
