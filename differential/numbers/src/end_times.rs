//! End times, as bits: special values, neighbours of whole numbers and of powers of two, and any
//! pattern.
use crate::dice::Dice;

const SIGN: u64 = 1 << 63;

/// Both zeros, infinities, subnormals and normals at the ends of their ranges, NaNs of both signs.
pub fn specials() -> Vec<u64> {
    let clear = [
        0x0000_0000_0000_0000, // zero
        0x0000_0000_0000_0001, // the smallest subnormal
        0x0008_0000_0000_0000,
        0x000f_ffff_ffff_ffff, // the largest subnormal
        0x0010_0000_0000_0000, // the smallest normal
        0x3cb0_0000_0000_0000, // 2^-52
        0x3fe0_0000_0000_0000, // a half
        0x7fef_ffff_ffff_ffff, // the largest finite number
        0x7ff0_0000_0000_0000, // infinity
        0x7ff0_0000_0000_0001, // signalling NaNs
        0x7ff4_0000_0000_0000,
        0x7ff7_ffff_ffff_ffff,
        0x7ff8_0000_0000_0000, // quiet NaNs
        0x7ff8_0000_0000_0001,
        0x7fff_ffff_ffff_ffff,
    ];
    with_both_signs(&clear)
}

/// Every power of two from 2^-1 to 2^65, 2^52, 2^53, 2^63 and 2^64 among them, and both neighbours.
pub fn powers_of_two() -> Vec<u64> {
    (1022..=1023 + 65u64)
        .flat_map(|biased_exponent| with_neighbours(biased_exponent << 52))
        .collect()
}

/// Whole numbers that a day meets and both neighbours, of both signs; and the rules' P11.
pub fn whole_numbers() -> Vec<u64> {
    let wholes = [
        3.0,
        5.0,
        6.0,
        7.0,
        10.0,
        59.0,
        60.0,
        100.0,
        999.0,
        3600.0,
        4095.0,
        4097.0,
        86399.0,
        86400.0,
        1e6,
        1e9,
        1e15,
        1e18,
        4294967295.0,
        9007199254740991.0,
        9223372036854774784.0,
        1.8e19,
        1.9e19,
        1e20,
        5.5,
        5.9,
    ];
    let near = wholes.map(|whole: f64| with_neighbours(whole.to_bits()));
    with_both_signs(&near.concat())
}

/// Any bit pattern.
fn any_pattern(dice: &mut Dice) -> u64 {
    dice.bits()
}

/// A number of 2^-2 to 2^66, of either sign but mostly above zero.
fn of_a_second(dice: &mut Dice) -> u64 {
    let biased_exponent = dice.between(1021, 1023 + 66) as u64;
    let fraction = dice.bits() >> 12;
    let sign = if dice.once_in(8) { SIGN } else { 0 };
    sign | biased_exponent << 52 | fraction
}

/// A neighbour of a whole number below 2^53.
fn near_a_whole(dice: &mut Dice) -> u64 {
    let whole = (dice.bits() >> dice.between(11, 63)) as f64;
    let neighbours = with_neighbours(whole.to_bits().max(1));
    dice.pick(&neighbours)
}

fn some_nan(dice: &mut Dice) -> u64 {
    dice.bits() | 0x7ff0_0000_0000_0001
}

fn some_subnormal(dice: &mut Dice) -> u64 {
    dice.bits() & !(0x7ff << 52)
}

pub fn random(dice: &mut Dice) -> u64 {
    match dice.below(10) {
        0..=3 => of_a_second(dice),
        4 | 5 => near_a_whole(dice),
        6 | 7 => any_pattern(dice),
        8 => some_nan(dice),
        _ => some_subnormal(dice),
    }
}

fn with_neighbours(bits: u64) -> [u64; 3] {
    [bits - 1, bits, bits + 1]
}

fn with_both_signs(clear: &[u64]) -> Vec<u64> {
    clear.iter().flat_map(|bits| [*bits, bits | SIGN]).collect()
}
