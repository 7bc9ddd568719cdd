//! What is in a file of cases.
use crate::case::{has_exponent, is_word, Case, Kind};
use crate::reading::{parts, MOST_DECIMALS, MOST_SIGNIFICANT};
use std::fmt;

#[derive(Debug, Default)]
pub struct Figures {
    decimals: usize,
    wholes: usize,
    seconds: usize,
    read_by_both: usize,
    refused_by_both: usize,
    /// Read by Rust and refused by the rules, by why it is refused.
    exponent: usize,
    word: usize,
    over_digits: usize,
    over_decimals: usize,
    over_both: usize,
}

impl Figures {
    pub fn count(&mut self, case: &Case) {
        match case.kind {
            Kind::Decimal => self.decimals += 1,
            Kind::Whole => self.wholes += 1,
            Kind::Second => self.seconds += 1,
        }
        match (case.is_refused(), case.is_read_by_rust()) {
            (false, _) => self.read_by_both += 1,
            (true, false) => self.refused_by_both += 1,
            (true, true) => *self.why_refused(&case.text) += 1,
        }
    }

    fn why_refused(&mut self, text: &[u8]) -> &mut usize {
        let Some(parts) = parts(text) else {
            assert!(has_exponent(text) != is_word(text));
            return if is_word(text) {
                &mut self.word
            } else {
                &mut self.exponent
            };
        };
        let digits = parts.significant().len() > MOST_SIGNIFICANT;
        match (digits, parts.decimals > MOST_DECIMALS) {
            (true, true) => &mut self.over_both,
            (true, false) => &mut self.over_digits,
            _ => &mut self.over_decimals,
        }
    }
}

impl fmt::Display for Figures {
    fn fmt(&self, f: &mut fmt::Formatter<'_>) -> fmt::Result {
        let all = self.decimals + self.wholes + self.seconds;
        write!(f, "cases {all}: decimals {}", self.decimals)?;
        writeln!(
            f,
            ", whole numbers {}, seconds {}",
            self.wholes, self.seconds
        )?;
        write!(f, "read by both {}", self.read_by_both)?;
        writeln!(f, ", refused by both {}", self.refused_by_both)?;
        write!(f, "read by Rust alone: exponent {}", self.exponent)?;
        write!(f, ", inf or nan {}", self.word)?;
        write!(f, ", over 15 digits {}", self.over_digits)?;
        write!(f, ", over 22 decimals {}", self.over_decimals)?;
        write!(f, ", over both {}", self.over_both)
    }
}
