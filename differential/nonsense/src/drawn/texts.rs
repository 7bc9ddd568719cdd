//! Texts: bytes at random, bytes that mean something, good texts, and good ones that are damaged.
use crate::turn::{Mixture, Turn};
use numbers::dice::Dice;
use numbers::spellings::{damaged, edge, noise};
use numbers::{decimal_texts, whole_texts};
use oracle::costs::table_texts::Text;

/// Bytes at which lines, fields, blanks and comments turn, and neighbours of some.
const TELLING: &[u8] = b",,,\n\r\t\x08\x0b\x0e #/+-.0a\0\x7f\x80\xff";

/// A file of a day, as it is handed out.
const DAY: &[u8] = include_bytes!("../../../../examples/busy.day");

/// Lengths about the blocks of 64 bytes that are looked at at once; at times pages of them.
pub fn length(dice: &mut Dice) -> usize {
    match dice.below(16) {
        0 => dice.between(0, 2),
        1..=3 => dice.pick(&[63, 64, 65, 127, 128, 129, 191, 192, 193]),
        4 | 5 => dice.between(0, 400),
        6 if dice.once_in(16) => dice.between(0, 9000),
        _ => dice.between(0, 40),
    }
}

/// Lines of a good file.
fn good(dice: &mut Dice) -> Vec<u8> {
    if dice.once_in(3) {
        return Text::random(9, dice).bytes(dice);
    }
    let start = dice.between(0, DAY.len());
    let end = DAY.len().min(start + length(dice));
    DAY[start..end].to_vec()
}

/// One or a few bytes that are not as they were.
pub fn spoiled(mut text: Vec<u8>, dice: &mut Dice) -> Vec<u8> {
    for _ in 0..dice.pick(&[1, 1, 1, 2, 4]) {
        text = damaged(&text, dice);
    }
    text
}

pub fn any(turn: &mut Turn) -> Vec<u8> {
    let dice = &mut turn.dice;
    match turn.mixture {
        Mixture::Random => (0..length(dice)).map(|_| dice.bits() as u8).collect(),
        Mixture::Special => special(dice),
        Mixture::Damaged => spoiled(good(dice), dice),
        Mixture::Good => good(dice),
    }
}

/// Telling bytes, at times one of them all along or all along but for one place.
fn special(dice: &mut Dice) -> Vec<u8> {
    let length = length(dice);
    if dice.once_in(3) {
        let mut text = vec![dice.pick(TELLING); length];
        if length > 0 && dice.once_in(2) {
            text[dice.between(0, length - 1)] = dice.pick(TELLING);
        }
        return text;
    }
    (0..length).map(|_| dice.pick(TELLING)).collect()
}

/// A byte that stands in the text, or any.
pub fn byte(text: &[u8], dice: &mut Dice) -> u8 {
    match dice.below(4) {
        0 => dice.bits() as u8,
        1 => dice.pick(TELLING),
        _ if text.is_empty() => 0,
        _ => dice.pick(text),
    }
}

/// A place up to an end, just past it, or anywhere.
pub fn place(end: usize, dice: &mut Dice) -> usize {
    match dice.below(16) {
        0 => dice.pick(&[0, 1, usize::MAX, usize::MAX - 1, 1 << 32, 1 << 63]),
        1 => dice.bits() as usize,
        2 | 3 => end,
        4 => end + 1,
        5 => end.saturating_sub(1),
        _ => dice.between(0, end),
    }
}

/// A whole number in text, or what is none; special ones lie about the limit.
pub fn whole(turn: &mut Turn) -> Vec<u8> {
    number(turn, whole_texts::random_number, whole_texts::random)
}

/// A decimal in text, or what is none; special ones lie about the limits and near ties.
pub fn decimal(turn: &mut Turn) -> Vec<u8> {
    number(turn, decimal_texts::random_read, decimal_texts::random)
}

type Drawn = fn(&mut Dice) -> Vec<u8>;

fn number(turn: &mut Turn, good: Drawn, special: Drawn) -> Vec<u8> {
    let dice = &mut turn.dice;
    match turn.mixture {
        Mixture::Random => (0..length(dice)).map(|_| dice.bits() as u8).collect(),
        Mixture::Special => match dice.below(4) {
            0 => noise(dice),
            1 => edge(dice),
            _ => special(dice),
        },
        Mixture::Damaged => spoiled(good(dice), dice),
        Mixture::Good => good(dice),
    }
}
