//! One number in text, as docs/RULES.md has it, read by hand over bytes.
use crate::rounding::nearest;

/// Refusal 5: a whole number is malformed or above 4,294,967,295.
pub const NO_WHOLE: u8 = 5;
/// Refusal 6: a decimal is malformed.
pub const NO_DECIMAL: u8 = 6;
/// Refusal 7: a decimal has over 15 significant digits or over 22 decimals.
pub const TOO_LONG: u8 = 7;

pub const MOST_SIGNIFICANT: usize = 15;
pub const MOST_DECIMALS: usize = 22;
pub const LARGEST_WHOLE: u64 = 4_294_967_295;

/// The parts of a decimal that is not malformed.
pub struct Parts {
    pub negative: bool,
    /// The digits before and after the point, together.
    pub digits: Vec<u8>,
    /// How many of them stand after the point.
    pub decimals: usize,
}

impl Parts {
    /// The digits from the first nonzero one to the last one written.
    pub fn significant(&self) -> &[u8] {
        after_zeros(&self.digits)
    }

    pub fn is_too_long(&self) -> bool {
        self.significant().len() > MOST_SIGNIFICANT || self.decimals > MOST_DECIMALS
    }
}

/// An optional sign, then digits with at most one point, at least one digit.
pub fn parts(text: &[u8]) -> Option<Parts> {
    let (negative, unsigned) = match text {
        [b'-', rest @ ..] => (true, rest),
        [b'+', rest @ ..] => (false, rest),
        _ => (false, text),
    };
    let (whole, fraction) = match unsigned.iter().position(|&byte| byte == b'.') {
        Some(point) => (&unsigned[..point], &unsigned[point + 1..]),
        None => (unsigned, &[][..]),
    };
    let digits = [whole, fraction].concat();
    if digits.is_empty() || !digits.iter().all(u8::is_ascii_digit) {
        return None;
    }
    Some(Parts {
        negative,
        digits,
        decimals: fraction.len(),
    })
}

/// The bits of the decimal's value, or its refusal.
pub fn decimal(text: &[u8]) -> Result<u64, u8> {
    let parts = parts(text).ok_or(NO_DECIMAL)?;
    if parts.is_too_long() {
        return Err(TOO_LONG);
    }
    let magnitude = nearest(number(parts.significant()), parts.decimals);
    Ok(magnitude | u64::from(parts.negative) << 63)
}

/// The whole number's value, or its refusal: an optional plus, then one or more digits.
pub fn whole(text: &[u8]) -> Result<u64, u8> {
    let digits = text.strip_prefix(b"+").unwrap_or(text);
    if digits.is_empty() || !digits.iter().all(u8::is_ascii_digit) {
        return Err(NO_WHOLE);
    }
    let significant = after_zeros(digits);
    if significant.len() > 10 || number(significant) > LARGEST_WHOLE {
        return Err(NO_WHOLE);
    }
    Ok(number(significant))
}

fn after_zeros(digits: &[u8]) -> &[u8] {
    let zeros = digits.iter().take_while(|&&digit| digit == b'0').count();
    &digits[zeros..]
}

/// The number that at most 19 digits spell.
fn number(digits: &[u8]) -> u64 {
    let value = |sum, digit: &u8| sum * 10 + u64::from(digit - b'0');
    digits.iter().fold(0, value)
}

#[cfg(test)]
mod tests {
    use super::*;

    fn zeros(count: usize) -> String {
        "0".repeat(count)
    }

    #[test]
    fn fifteen_significant_digits_are_read_and_sixteen_refused() {
        let read = |text: &str| decimal(text.as_bytes());
        assert!(read("123456789012345").is_ok());
        assert_eq!(read("1234567890123456"), Err(TOO_LONG));
        assert!(read("1.23456789012345").is_ok());
        assert_eq!(read("1.234567890123456"), Err(TOO_LONG));
        // a written zero counts once a nonzero digit came before it
        assert!(read("100000000000000").is_ok());
        assert_eq!(read("1000000000000000"), Err(TOO_LONG));
        assert_eq!(read("0.1000000000000000"), Err(TOO_LONG));
        // leading zeros do not count
        assert!(read(&format!("{}123456789012345", zeros(385))).is_ok());
    }

    #[test]
    fn twenty_two_decimals_are_read_and_twenty_three_refused() {
        let read = |text: String| decimal(text.as_bytes());
        assert_eq!(read(format!("0.{}", zeros(22))), Ok(0));
        assert_eq!(read(format!("0.{}", zeros(23))), Err(TOO_LONG));
        assert_eq!(read(format!(".{}1", zeros(21))), Ok(1e-22f64.to_bits()));
        assert_eq!(read(format!(".{}1", zeros(22))), Err(TOO_LONG));
    }

    #[test]
    fn malformed_goes_before_too_long() {
        let sixteen_and_a_letter = b"1234567890123456x";
        assert_eq!(decimal(sixteen_and_a_letter), Err(NO_DECIMAL));
        assert_eq!(decimal(b"1.234567890123456."), Err(NO_DECIMAL));
    }

    #[test]
    fn signs_points_and_other_spellings() {
        for text in [
            "", ".", "+", "-", "+.", "-.", "++1", "1..", "1.2.3", "1-", "1e5", "inf", " 1",
        ] {
            assert_eq!(decimal(text.as_bytes()), Err(NO_DECIMAL), "{text:?}");
        }
        for text in ["-0", "-.0", "-0.", "-0.0"] {
            assert_eq!(
                decimal(text.as_bytes()),
                Ok((-0.0f64).to_bits()),
                "{text:?}"
            );
        }
        assert_eq!(decimal(b"+5."), Ok(5.0f64.to_bits()));
        assert_eq!(decimal(b"-.5"), Ok((-0.5f64).to_bits()));
    }

    #[test]
    fn whole_numbers_end_at_their_limit() {
        assert_eq!(whole(b"4294967295"), Ok(4_294_967_295));
        assert_eq!(whole(b"+0004294967295"), Ok(4_294_967_295));
        assert_eq!(whole(zeros(400).as_bytes()), Ok(0));
        for text in [
            "4294967296",
            "18446744073709551621",
            "",
            "+",
            "-0",
            "++1",
            "1.",
            " 1",
        ] {
            assert_eq!(whole(text.as_bytes()), Err(NO_WHOLE), "{text:?}");
        }
    }
}
