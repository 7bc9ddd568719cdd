//! The recorded sample: the same cases on every machine, each once.
use crate::case::Case;
use crate::decimal_texts as decimals;
use crate::dice::Dice;
use crate::sampling::in_turn;
use crate::spellings::{damaged, edges, every_byte};
use crate::ties::nearest_to_ties;
use crate::{end_times, whole_texts as wholes};

const SEED: u64 = 1;

/// The sentence that says the space.
pub fn space() -> String {
    format!(
        "space: decimals and whole numbers of 0 to 400 bytes, every limit of the rules, \
         end times of any bit pattern; seed {SEED}"
    )
}

/// The groups are dealt one case of each in turn, so that any beginning of the sample holds some of
/// every group.
pub fn recorded() -> Vec<Case> {
    let dice = &mut Dice::new(SEED);
    let mut groups = decimal_groups(dice);
    groups.extend(whole_groups(dice));
    groups.extend(second_groups(dice));
    in_turn(&groups)
}

fn decimal_groups(dice: &mut Dice) -> Vec<Vec<Case>> {
    let ties = nearest_to_ties(dice).into_iter().map(decimals::of_number);
    let texts = [
        edges(),
        every_byte(),
        decimals::limits(),
        decimals::powers_of_ten(),
        ties.collect(),
        decimals::one_of_every_length(dice),
        damaged_copies(240, decimals::random_read, dice),
    ];
    let cases = |texts: &Vec<Vec<u8>>| texts.iter().map(|text| Case::decimal(text)).collect();
    texts.iter().map(cases).collect()
}

fn whole_groups(dice: &mut Dice) -> Vec<Vec<Case>> {
    let numbers = (0..60).map(|_| wholes::random_number(dice)).collect();
    let texts = [
        edges(),
        every_byte(),
        wholes::limits(),
        numbers,
        damaged_copies(90, wholes::random_number, dice),
    ];
    let cases = |texts: &Vec<Vec<u8>>| texts.iter().map(|text| Case::whole(text)).collect();
    texts.iter().map(cases).collect()
}

fn second_groups(dice: &mut Dice) -> Vec<Vec<Case>> {
    let ends = [
        end_times::specials(),
        end_times::powers_of_two(),
        end_times::whole_numbers(),
        (0..160).map(|_| end_times::random(dice)).collect(),
    ];
    let cases = |ends: &Vec<u64>| ends.iter().map(|&end| Case::second(end)).collect();
    ends.iter().map(cases).collect()
}

fn damaged_copies(
    count: usize,
    whole: impl Fn(&mut Dice) -> Vec<u8>,
    dice: &mut Dice,
) -> Vec<Vec<u8>> {
    (0..count).map(|_| damaged(&whole(dice), dice)).collect()
}

#[cfg(test)]
mod tests {
    use super::*;
    use crate::case::Kind;
    use crate::sampling::assert_steady;

    #[test]
    fn the_sample_is_the_same_each_time_and_of_the_size_wanted() {
        assert_steady(recorded, 2400..=3500, 600_000);
    }

    #[test]
    fn a_beginning_holds_every_kind_read_and_refused() {
        let beginning = &recorded()[..200];
        let holds = |kind: Kind, refused: bool| {
            beginning
                .iter()
                .any(|case| case.kind == kind && case.is_refused() == refused)
        };
        assert!(holds(Kind::Decimal, true) && holds(Kind::Decimal, false));
        assert!(holds(Kind::Whole, true) && holds(Kind::Whole, false));
        assert!(holds(Kind::Second, false));
    }
}
