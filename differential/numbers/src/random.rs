//! Random cases from a seed, without end.
use crate::case::Case;
use crate::dice::Dice;
use crate::{decimal_texts, end_times, whole_texts};

/// The sentence that says the space.
pub fn space(seed: u64) -> String {
    format!(
        "space: random decimals and whole numbers of 0 to 400 bytes, damaged copies and numbers \
         nearest to ties among them, end times of any bit pattern; seed {seed}"
    )
}

pub fn cases(seed: u64) -> impl Iterator<Item = Case> {
    let mut dice = Dice::new(seed);
    std::iter::repeat_with(move || case(&mut dice))
}

fn case(dice: &mut Dice) -> Case {
    match dice.below(5) {
        0..=2 => Case::decimal(&decimal_texts::random(dice)),
        3 => Case::whole(&whole_texts::random(dice)),
        _ => Case::second(end_times::random(dice)),
    }
}
