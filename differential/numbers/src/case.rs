//! One case: a text, the rules' answer to it and Rust's. Where the two have to agree and do not,
//! making the case panics.
use crate::reading::{self, NO_DECIMAL, TOO_LONG};
use crate::second::second;

/// Bytes of the longest text that a case may have.
pub const LONGEST_TEXT: usize = 400;

/// An answer's column: 16 hex digits, or dashes.
pub type Column = [u8; 16];

/// Rust's column where its parse is an error, or where the text is not UTF-8.
pub const NO_ANSWER: Column = [b'-'; 16];

/// How a NaN that Rust parses is written, whatever its sign.
const NAN_BITS: u64 = 0x7ff8_0000_0000_0000;

#[derive(Clone, Copy, Debug, PartialEq, Eq, Hash)]
pub enum Kind {
    Decimal,
    Whole,
    Second,
}

#[derive(Clone, Debug, PartialEq, Eq, Hash)]
pub struct Case {
    pub kind: Kind,
    /// What the rules say.
    pub answer: Column,
    /// What Rust says.
    pub rust: Column,
    /// The text; a second's is the end time's bits as hex digits.
    pub text: Vec<u8>,
}

impl Case {
    pub fn decimal(text: &[u8]) -> Case {
        let ours = reading::decimal(text);
        let rust = rust_decimal(text);
        let agree = match (ours, rust) {
            (Ok(value), Some(bits)) => value == bits,
            (Err(TOO_LONG), Some(_)) => true,
            (Err(NO_DECIMAL), Some(_)) => has_exponent(text) || is_word(text),
            (Err(NO_DECIMAL), None) => true,
            _ => false,
        };
        assert!(agree, "decimal {}: {ours:?} {rust:x?}", text.escape_ascii());
        Case::new(Kind::Decimal, ours, rust, text.to_vec())
    }

    pub fn whole(text: &[u8]) -> Case {
        let ours = reading::whole(text);
        let rust = rust_whole(text);
        assert_eq!(ours.ok(), rust, "whole {}", text.escape_ascii());
        Case::new(Kind::Whole, ours, rust, text.to_vec())
    }

    pub fn second(end: u64) -> Case {
        let ours = second(end);
        let rust = f64::from_bits(end).max(0.0) as u64;
        assert_eq!(ours, rust, "second of {end:016x}");
        Case::new(Kind::Second, Ok(ours), Some(rust), hex(end).to_vec())
    }

    fn new(kind: Kind, ours: Result<u64, u8>, rust: Option<u64>, text: Vec<u8>) -> Case {
        Case {
            kind,
            answer: ours.map_or_else(refusal, hex),
            rust: rust.map_or(NO_ANSWER, hex),
            text,
        }
    }

    /// A second's end time, as bits.
    pub fn end(&self) -> Option<u64> {
        let digits = std::str::from_utf8(&self.text).ok()?;
        match self.kind {
            Kind::Second => u64::from_str_radix(digits, 16).ok(),
            _ => None,
        }
    }

    pub fn is_refused(&self) -> bool {
        self.answer[0] == b'-'
    }

    pub fn is_read_by_rust(&self) -> bool {
        self.rust != NO_ANSWER
    }
}

/// Rust's own reading of a decimal, as bits.
fn rust_decimal(text: &[u8]) -> Option<u64> {
    let value: f64 = std::str::from_utf8(text).ok()?.parse().ok()?;
    Some(if value.is_nan() {
        NAN_BITS
    } else {
        value.to_bits()
    })
}

/// Rust's own reading of a whole number.
fn rust_whole(text: &[u8]) -> Option<u64> {
    let value: u32 = std::str::from_utf8(text).ok()?.parse().ok()?;
    Some(u64::from(value))
}

/// Whether a decimal stands before an `e` or `E`, and a whole number with or without a sign after.
pub fn has_exponent(text: &[u8]) -> bool {
    let Some(at) = text
        .iter()
        .position(|byte| byte.eq_ignore_ascii_case(&b'e'))
    else {
        return false;
    };
    let exponent = match &text[at + 1..] {
        [b'+' | b'-', digits @ ..] => digits,
        digits => digits,
    };
    let is_whole = !exponent.is_empty() && exponent.iter().all(u8::is_ascii_digit);
    is_whole && reading::parts(&text[..at]).is_some()
}

/// Whether the text is `inf`, `infinity` or `nan`, in any case and with or without a sign.
pub fn is_word(text: &[u8]) -> bool {
    let unsigned = match text {
        [b'+' | b'-', rest @ ..] => rest,
        _ => text,
    };
    let words: [&[u8]; 3] = [b"inf", b"infinity", b"nan"];
    words.iter().any(|word| unsigned.eq_ignore_ascii_case(word))
}

/// 16 lower-case hex digits.
pub fn hex(number: u64) -> Column {
    let digit = |at: usize| b"0123456789abcdef"[(number >> (60 - 4 * at)) as usize & 15];
    std::array::from_fn(digit)
}

/// 15 dashes and the refusal's number.
fn refusal(number: u8) -> Column {
    let mut column = NO_ANSWER;
    column[15] = b'0' + number;
    column
}

#[cfg(test)]
mod tests {
    use super::*;

    #[test]
    fn columns() {
        assert_eq!(&hex(0x0123_4567_89ab_cdef), b"0123456789abcdef");
        let over = Case::decimal(b"1234567890123456");
        assert_eq!(&over.answer, b"---------------7");
        assert_eq!(&over.rust, b"43118b54f22aeb00");
        assert_eq!(&Case::whole(b"-1").answer, b"---------------5");
        assert_eq!(&Case::decimal(b"-nan").rust, b"7ff8000000000000");
        assert_eq!(Case::decimal(b"\xff").rust, NO_ANSWER);
        assert_eq!(&Case::second(5.5f64.to_bits()).text, b"4016000000000000");
    }

    #[test]
    fn what_rust_reads_besides() {
        for text in ["1e5", "-.5E-1", "1.e+07"] {
            assert!(has_exponent(text.as_bytes()), "{text:?}");
        }
        for text in ["e5", "1e", "1e+", ".e1", "1e5.", "1e5e5"] {
            assert!(!has_exponent(text.as_bytes()), "{text:?}");
        }
        assert!(is_word(b"-InFiNiTy") && is_word(b"NAN") && !is_word(b"infi"));
    }
}
