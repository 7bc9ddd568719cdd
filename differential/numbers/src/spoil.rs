//! Copies of cases with a wrong answer: a replay has to count every one of them.
use crate::case::Case;

/// The case with the last digit of its answer changed: to another refusal's number where it is
/// refused, else by the lowest bit.
pub fn spoiled(mut case: Case) -> Case {
    case.answer[15] = match (case.is_refused(), case.answer[15]) {
        (true, b'7') => b'5',
        (true, digit) => digit + 1,
        (false, digit) => with_lowest_bit_turned(digit),
    };
    case
}

/// A digit stays a digit, decimal or hexadecimal.
pub fn with_lowest_bit_turned(digit: u8) -> u8 {
    let value = (digit as char).to_digit(16).unwrap_or(0) ^ 1;
    b"0123456789abcdef"[value as usize]
}

#[cfg(test)]
mod tests {
    use super::*;

    #[test]
    fn every_case_is_changed_in_one_digit() {
        for case in crate::sample::recorded() {
            let changed = spoiled(case.clone());
            let differing = (0..16).filter(|&at| changed.answer[at] != case.answer[at]);
            assert_eq!(differing.count(), 1);
            assert_eq!((changed.rust, changed.text), (case.rust, case.text));
        }
    }
}
