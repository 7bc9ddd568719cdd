//! Copies of cases with a wrong column: a replay has to count every one of them.
use crate::case::{Case, Kind};
use numbers::case::NO_ANSWER;
use numbers::spoil::with_lowest_bit_turned;

/// The case with the last digit of one of its columns changed, of the columns that a replay compares
/// the one whose turn it is.
pub fn spoiled(turn: usize, mut case: Case) -> Case {
    let compared = compared(&case);
    let column = compared[turn % compared.len()];
    let digit = &mut case.columns[column][15];
    *digit = with_lowest_bit_turned(*digit);
    case
}

/// A replay compares all that the rules say, and what the Rust says where both read.
fn compared(case: &Case) -> Vec<usize> {
    let says_the_rust: &[(usize, usize)] = match case.kind {
        Kind::Bank(_) => &[(3, 0)],
        Kind::Model => &[(2, 0), (3, 1)],
        Kind::Value => &[(1, 0)],
    };
    let is_compared = |column: &usize| {
        let pair = says_the_rust.iter().find(|(rust, _)| rust == column);
        pair.is_none_or(|&(rust, ours)| {
            case.columns[rust] != NO_ANSWER && case.refusal(ours).is_none()
        })
    };
    (0..case.columns.len()).filter(is_compared).collect()
}

#[cfg(test)]
mod tests {
    use super::*;

    #[test]
    fn every_case_is_changed_in_one_digit_that_is_compared() {
        for (turn, case) in crate::sample::recorded().into_iter().enumerate() {
            let changed = spoiled(turn, case.clone());
            let before = case.columns.as_flattened();
            let after = changed.columns.as_flattened();
            let places = 0..before.len();
            let differing: Vec<_> = places.filter(|&at| before[at] != after[at]).collect();
            assert!(matches!(differing[..], [15 | 31 | 47 | 63]));
            assert_ne!(before[differing[0]], b'-');
            assert_eq!((changed.kind, changed.text), (case.kind, case.text));
        }
    }

    #[test]
    fn a_beginning_spoils_both_columns_of_values() {
        let beginning = crate::sample::recorded().into_iter().take(200).enumerate();
        let values = beginning.filter(|(_, case)| case.kind == Kind::Value);
        let (ours, rust): (Vec<_>, Vec<_>) = values
            .partition(|(turn, case)| spoiled(*turn, case.clone()).columns[0] != case.columns[0]);
        assert!(ours.len() > 5 && rust.len() > 5);
    }
}
