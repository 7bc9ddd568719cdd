//! Texts of no format, texts with bytes changed, and the answer of a text that was read.
use super::declared::Read;
use crate::turn::Mixture;
use numbers::dice::Dice;
use numbers::spellings::damaged;

/// A text without a word of the format in it: bytes, or parts of the format in any order behind its header.
pub fn nonsense(mixture: Mixture, header: &str, parts: &[&str], dice: &mut Dice) -> Vec<u8> {
    let len = dice.pick(&[0, 1, 2, 15, 16, 17, 40, 200]);
    if mixture == Mixture::Random {
        let most = dice.pick(&[256, 256, 128]);
        return (0..len).map(|_| dice.below(most) as u8).collect();
    }
    let mut text = if dice.once_in(3) {
        Vec::new()
    } else {
        header.as_bytes().to_vec()
    };
    for _ in 0..len.min(60) {
        text.extend(dice.pick(parts).as_bytes());
    }
    text
}

/// The text with one to four bytes, or stretches of it, not as they were.
pub fn mutated(mut text: Vec<u8>, dice: &mut Dice) -> Vec<u8> {
    for _ in 0..dice.pick(&[1, 1, 1, 2, 4]) {
        if text.is_empty() {
            return text;
        }
        let at = dice.between(0, text.len() - 1);
        let end = (at + dice.between(0, 9)).min(text.len());
        match dice.below(5) {
            0 => text[at] = dice.bits() as u8,
            1 => drop(text.drain(at..end)),
            2 => {
                let twice = text[at..end].to_vec();
                text.splice(end..end, twice);
            }
            3 => text.truncate(at),
            _ => text = damaged(&text, dice),
        }
    }
    text
}

/// Any bits for a buffer of so many slots.
pub fn bits(len: usize, dice: &mut Dice) -> Vec<u64> {
    (0..len).map(|_| dice.bits()).collect()
}

pub fn wholes(len: usize, dice: &mut Dice) -> Vec<u32> {
    (0..len).map(|_| dice.bits() as u32).collect()
}

/// Rows and depth, or the refusal and its row, as they cross.
pub fn read_of(read: Result<(u32, u32), (u8, u64)>) -> Read {
    let (refusal, row) = read.err().unwrap_or((0, 0));
    let (rows, depth) = read.unwrap_or((0, 0));
    Read {
        refusal: refusal.into(),
        row,
        rows,
        depth,
    }
}
