//! Random cases from a seed, without end.
use crate::case::Case;
use crate::models;
use crate::values;
use numbers::dice::Dice;
use oracle::banks::bank_texts::{self, Table};

/// The sentence that says the space.
pub fn space(seed: u64) -> String {
    format!(
        "space: random banks of up to 200 rows, of columns and depths up to and past their limits, \
         faulty and damaged copies and short room among them; random acceptance models with draws, \
         of any bit pattern; random models with a position; seed {seed}"
    )
}

/// A tenth are values of positions; of the others, three banks to a model.
pub fn cases(seed: u64) -> impl Iterator<Item = Case> {
    let mut dice = Dice::new(seed);
    std::iter::repeat_with(move || case(&mut dice))
}

fn case(dice: &mut Dice) -> Case {
    if dice.once_in(10) {
        let (model, position) = values::random(dice);
        return Case::value(&model, position);
    }
    if dice.once_in(4) {
        return Case::model(&models::random(dice));
    }
    let (text, room) = bank_texts::random(Table::random, dice);
    Case::bank(&text, room)
}
