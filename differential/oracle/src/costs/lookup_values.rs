//! What lookups in a lent table are asked with.
use crate::costs::lent_table::{LentTable, INFINITY};
use numbers::dice::Dice;

const MINUS_ZERO: u64 = 0x8000_0000_0000_0000;

/// Depths that the fractional lookup is asked with, besides those of the table.
pub const SPECIAL_DEPTHS: &[u64] = &[
    0,
    MINUS_ZERO,
    1,
    0x8000_0000_0000_0001,
    0xbfe0_0000_0000_0000, // minus a half
    0x7fef_ffff_ffff_ffff,
    INFINITY,
    0xfff0_0000_0000_0000,
    0x7ff8_0000_0000_0000,
    0x7ff0_0000_0000_0001,
    0xfff8_0000_0000_0000,
    0x41ef_ffff_ffe0_0000, // 4,294,967,295
    0x41f0_0000_0000_0000, // 2^32
];

/// Corrections of a price, in range and not.
pub const DELTAS: &[u64] = &[
    0,
    MINUS_ZERO,
    0x3ff0_0000_0000_0000, // 1
    0xbff0_0000_0000_0000, // -1
    0xbf50_0000_0000_0000, // about -0.001
    0x41cd_cd65_0000_0000, // 1e9
    0xc1cd_cd65_0000_0000, // -1e9
    0x41cd_cd65_0000_0001,
    0xc1cd_cd65_0000_0001,
    INFINITY,
    0xfff0_0000_0000_0000,
    0x7ff8_0000_0000_0000,
    0x0000_0000_0000_0001,
    0x8000_0000_0000_0001,
];

/// An entry of the column, one beside it, between two of them, or any number.
pub fn near(column: &[u32], dice: &mut Dice) -> u32 {
    if column.is_empty() || dice.once_in(8) {
        return dice.pick(&[0, 1, 2, 3, 64, 65, 1024, u32::MAX - 1, u32::MAX]);
    }
    let [first, second] = [0; 2].map(|_| dice.pick(column));
    match dice.below(6) {
        0 => first.saturating_add(1),
        1 => first.saturating_sub(1),
        2 | 3 => ((u64::from(first) + u64::from(second)) / 2) as u32,
        _ => first,
    }
}

/// A correction of a price, a special one or a small one of either sign.
pub fn delta(dice: &mut Dice) -> u64 {
    if dice.once_in(3) {
        return dice.pick(DELTAS);
    }
    let thousandths = dice.between(0, 4000) as f64 - 2000.0;
    (thousandths / 1000.0).to_bits()
}

/// A depth at, between or just beside those of the table, a special one, or any bits.
pub fn fractional(table: &LentTable, dice: &mut Dice) -> u64 {
    if table.depths.is_empty() || dice.once_in(6) {
        return match dice.below(4) {
            0 => dice.bits(),
            _ => dice.pick(SPECIAL_DEPTHS),
        };
    }
    let [first, second] = [0; 2].map(|_| f64::from(dice.pick(&table.depths)));
    match dice.below(6) {
        0 => first.to_bits(),
        1 => first.to_bits().saturating_sub(1),
        2 => first.to_bits() + 1,
        3 => ((first + second) / 2.0).to_bits(),
        _ => {
            let part = dice.below(1 << 20) as f64 / f64::from(1 << 20);
            (first + part * (second - first)).to_bits()
        }
    }
}
