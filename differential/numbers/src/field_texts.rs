//! What the texts of banks and of cost tables share: fields, line ends, and faults in the bytes.
use crate::dice::Dice;
use crate::spellings::damaged;

/// A text that can stand in a field, mostly a short one: it holds no comma and no LF.
pub fn field_of(text: impl Fn(&mut Dice) -> Vec<u8>, dice: &mut Dice) -> Vec<u8> {
    loop {
        let text = text(dice);
        let is_short = text.len() <= 40 || dice.once_in(8);
        if is_short && !text.contains(&b',') && !text.contains(&b'\n') {
            return text;
        }
    }
}

/// Takes the last line's end away.
pub fn without_end(text: &mut Vec<u8>) {
    for end in [b'\n', b'\r'] {
        if text.last() == Some(&end) {
            text.pop();
        }
    }
}

/// The text as it is made, or damaged in a byte; at times no text at all.
pub fn whole_or_damaged(text: impl FnOnce(&mut Dice) -> Vec<u8>, dice: &mut Dice) -> Vec<u8> {
    if dice.once_in(2000) {
        return Vec::new();
    }
    let text = text(dice);
    if dice.once_in(6) {
        return damaged(&text, dice);
    }
    text
}
