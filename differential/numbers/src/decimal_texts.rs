//! Texts of decimals: the limits, powers of ten, one of every length, and random ones.
use crate::case::LONGEST_TEXT;
use crate::dice::Dice;
use crate::spellings::{damaged, edge, noise};
use crate::ties::near_a_tie;

/// The digits with a point before the last `decimals` of them, zeros filled in before few ones.
pub fn spelled(digits: &str, decimals: usize) -> String {
    if decimals == 0 {
        return digits.to_string();
    }
    let filled = format!("{digits:0>width$}", width = decimals + 1);
    let (whole, fraction) = filled.split_at(filled.len() - decimals);
    format!("{whole}.{fraction}")
}

/// Digits, the first of them not zero.
fn random_digits(count: usize, dice: &mut Dice) -> String {
    let first = dice.pick(b"123456789") as char;
    let more = (1..count).map(|_| dice.pick(b"0123456789") as char);
    std::iter::once(first).chain(more).collect()
}

/// A random sign, and with it leading zeros, no zero before the point, or a point at the end.
fn dressed(plain: &str, dice: &mut Dice) -> String {
    let sign = dice.pick(&["", "", "+", "-"]);
    let most_zeros = LONGEST_TEXT - 1 - plain.len();
    let dressed = match dice.below(8) {
        0 => format!("{}{plain}", "0".repeat(dice.between(1, 9))),
        1 if dice.once_in(4) => format!("{}{plain}", "0".repeat(dice.between(10, most_zeros))),
        2 if plain.starts_with("0.") => plain[1..].to_string(),
        3 if !plain.contains('.') => format!("{plain}."),
        _ => plain.to_string(),
    };
    format!("{sign}{dressed}")
}

/// One of every count of digits 1 to 16 and of decimals 0 to 23: both limits and one past each.
pub fn one_of_every_length(dice: &mut Dice) -> Vec<Vec<u8>> {
    let lengths = (1..=16).flat_map(|digits| (0..=23).map(move |decimals| (digits, decimals)));
    lengths
        .map(|(digits, decimals)| {
            let plain = spelled(&random_digits(digits, dice), decimals);
            dressed(&plain, dice).into_bytes()
        })
        .collect()
}

/// 15 and 16 significant digits and 22 and 23 decimals, with zeros by the hundred around them.
pub fn limits() -> Vec<Vec<u8>> {
    let mut texts = Vec::new();
    for digits in [
        "999999999999999",
        "9999999999999999",
        "100000000000000",
        "1000000000000000",
    ] {
        for decimals in [0, 1, 14, 15, 16, 21, 22, 23] {
            let plain = spelled(digits, decimals);
            texts.push(format!("-{plain}"));
            for zeros in [0, 1, 100, 300, LONGEST_TEXT - plain.len()] {
                texts.push(format!("{}{plain}", "0".repeat(zeros)));
            }
        }
    }
    texts.extend(zeros_after_the_point());
    texts.into_iter().map(String::into_bytes).collect()
}

/// Nothing but zeros after the point, or one digit behind them, up to and past 22 decimals.
fn zeros_after_the_point() -> Vec<String> {
    let mut texts = Vec::new();
    for zeros in [14, 15, 16, 20, 21, 22, 23, 24, 100, 200, 390].map(|count| "0".repeat(count)) {
        for text in [
            ".{}", "0.{}", "-0.{}", "5.{}", ".{}1", "0.{}9", "-000.{}5", "1.{}1",
        ] {
            texts.push(text.replace("{}", &zeros));
        }
    }
    texts
}

/// Every power of ten from 10^-23 to 10^23, and the two that differ by one in the last digit.
pub fn powers_of_ten() -> Vec<Vec<u8>> {
    let mut texts = Vec::new();
    for exponent in 0..=23 {
        let zeros = "0".repeat(exponent);
        texts.push(format!("1{zeros}"));
        texts.push(format!("{}1", &zeros[..exponent.saturating_sub(1)]));
        texts.push("9".repeat(exponent.max(1)));
        texts.push(spelled("1", exponent));
        texts.push(spelled("2", exponent));
        texts.push(spelled("10", exponent));
        texts.push(format!("0.{}", "9".repeat(exponent.max(1))));
        texts.push(format!("1{}1", &zeros[..exponent.saturating_sub(1)]));
    }
    texts.into_iter().map(String::into_bytes).collect()
}

/// A number that misses a tie by little or by least.
pub fn of_number((number, decimals): (u64, usize)) -> Vec<u8> {
    spelled(&number.to_string(), decimals).into_bytes()
}

/// One that the rules read: at most 15 digits and 22 decimals.
pub fn random_read(dice: &mut Dice) -> Vec<u8> {
    let digits = random_digits(dice.between(1, 15), dice);
    let plain = spelled(&digits, dice.between(0, 22));
    dressed(&plain, dice).into_bytes()
}

/// One of any digits 1 to 16 and decimals 0 to 23.
fn random_around_the_limits(dice: &mut Dice) -> Vec<u8> {
    let digits = random_digits(dice.between(1, 16), dice);
    let plain = spelled(&digits, dice.between(0, 23));
    dressed(&plain, dice).into_bytes()
}

/// Any text that a decimal's reader may be handed.
pub fn random(dice: &mut Dice) -> Vec<u8> {
    match dice.below(10) {
        0..=3 => random_read(dice),
        4 => random_around_the_limits(dice),
        5 => of_number(near_a_tie(dice)),
        6 | 7 => damaged(&random_read(dice), dice),
        8 => noise(dice),
        _ => edge(dice),
    }
}
