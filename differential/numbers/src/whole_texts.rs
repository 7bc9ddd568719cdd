//! Texts of whole numbers: the limit and its neighbours, and random ones.
use crate::case::LONGEST_TEXT;
use crate::dice::Dice;
use crate::spellings::{damaged, edge, noise};

/// The limit and its neighbours, numbers with a digit more or less, and numbers that are small
/// again once they are taken modulo 2^32 or 2^64.
const NUMBERS: &[&str] = &[
    "0",
    "1",
    "9",
    "10",
    "999999999",
    "1000000000",
    "2147483647",
    "2147483648",
    "4294967290",
    "4294967294",
    "4294967295",
    "4294967296",
    "4294967297",
    "4294967299",
    "4294967300",
    "4294967301",
    "4294967305",
    "4300000000",
    "5000000000",
    "8589934591",
    "9999999999",
    "10000000000",
    "42949672950",
    "42949672960",
    "9223372036854775808",
    "18446744073709551615",
    "18446744073709551616",
    "18446744073709551621",
    "100000000000000000000",
    "340282366920938463463374607431768211461",
];

/// Every one of these numbers behind a plus, zeros, or both.
pub fn limits() -> Vec<Vec<u8>> {
    let mut texts = Vec::new();
    for number in NUMBERS {
        for (sign, zeros) in [("", 0), ("+", 0), ("", 1), ("+", 3), ("-", 0)] {
            texts.push(format!("{sign}{}{number}", "0".repeat(zeros)));
        }
    }
    for number in ["0", "7", "4294967295", "4294967296"] {
        for zeros in [22, 100, 200, 300, LONGEST_TEXT - number.len()] {
            texts.push(format!("{}{number}", "0".repeat(zeros)));
            texts.push(format!("+{}{number}", "0".repeat(zeros - 1)));
        }
    }
    texts.into_iter().map(String::into_bytes).collect()
}

/// A number of at most 35 bits, so that some are past the limit, with or without plus and zeros.
pub fn random_number(dice: &mut Dice) -> Vec<u8> {
    let number = dice.bits() >> dice.between(29, 63);
    let zeros = match dice.below(8) {
        0 => dice.between(1, 9),
        1 if dice.once_in(4) => dice.between(10, 385),
        _ => 0,
    };
    let sign = dice.pick(&["", "", "+"]);
    format!("{sign}{}{number}", "0".repeat(zeros)).into_bytes()
}

/// A number at most 16 away from the limit.
fn random_at_the_limit(dice: &mut Dice) -> Vec<u8> {
    let number = 4_294_967_280 + dice.below(33);
    number.to_string().into_bytes()
}

/// Any text that a whole number's reader may be handed.
pub fn random(dice: &mut Dice) -> Vec<u8> {
    match dice.below(10) {
        0..=3 => random_number(dice),
        4 => random_at_the_limit(dice),
        5..=7 => damaged(&random_number(dice), dice),
        8 => noise(dice),
        _ => edge(dice),
    }
}
