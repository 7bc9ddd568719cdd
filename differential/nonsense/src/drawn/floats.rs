//! Floats by their bits.
use crate::turn::{Mixture, Turn};
use numbers::end_times;
use oracle::drafter_values::{float_up_to, SPECIALS};

/// Any float: at random, one of the special ones, one of a day's numbers, or such a one with a bit
/// turned.
pub fn float(turn: &mut Turn) -> u64 {
    let dice = &mut turn.dice;
    match turn.mixture {
        Mixture::Random => dice.bits(),
        Mixture::Special => dice.pick(SPECIALS),
        Mixture::Damaged => end_times::random(dice) ^ 1 << dice.below(64),
        Mixture::Good => match dice.below(3) {
            0 => end_times::random(dice),
            1 => float_up_to(18, dice),
            _ => (dice.between(0, 8) as f64 / 4.0 - 1.0).to_bits(),
        },
    }
}

/// One that lies near another as often as not: the same, a neighbour of it, or of the other sign.
pub fn near(x: u64, turn: &mut Turn) -> u64 {
    match turn.dice.below(12) {
        0 | 1 => x,
        2 => x.wrapping_add(1),
        3 => x.wrapping_sub(1),
        4 => x ^ 1 << 63,
        _ => float(turn),
    }
}

/// A float of a range that starts at 0 and ends at a power of ten, or any by the mixture.
pub fn up_to(power: i32, turn: &mut Turn) -> u64 {
    match turn.mixture {
        Mixture::Good => float_up_to(power, &mut turn.dice),
        Mixture::Damaged if !turn.dice.once_in(8) => float_up_to(power, &mut turn.dice),
        _ => float(turn),
    }
}
