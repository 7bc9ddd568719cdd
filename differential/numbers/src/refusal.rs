//! A text's refusal, and why the Rust may read a text that the rules refuse. There is no other
//! reason: a writer stops.
use crate::case::{has_exponent, is_word};
use crate::reading::{parts, MOST_SIGNIFICANT, NO_DECIMAL, TOO_LONG};
use std::fmt;

#[derive(Clone, Copy, Debug, PartialEq, Eq)]
pub struct Refusal<'a> {
    pub number: u8,
    pub row: u64,
    /// The number in text that is at fault, where one is.
    pub field: &'a [u8],
}

impl<'a> Refusal<'a> {
    pub fn new(number: u8, row: u64) -> Refusal<'a> {
        let field = &[];
        Refusal { number, row, field }
    }
}

#[derive(Clone, Copy, Debug, PartialEq, Eq, PartialOrd, Ord, Hash)]
pub enum Reason {
    /// 1: the Rust reads UTF-8.
    HighByte,
    /// 6: a decimal with an exponent.
    Exponent,
    /// 6: `inf`, `infinity` or `nan`.
    Word,
    /// 7: over 15 significant digits.
    OverDigits,
    /// 7: over 22 decimals, and no more than 15 significant digits.
    OverDecimals,
    /// 11: more columns, or a greater depth, than the rules take.
    Columns,
    /// 11: more rows than the rules take.
    Rows,
    /// 16: the Rust is lent no buffers.
    Room,
}

impl Reason {
    /// Nothing where the Rust refuses for the same fault.
    pub fn of(refusal: &Refusal) -> Option<Reason> {
        match (refusal.number, refusal.row) {
            (1, _) => Some(Reason::HighByte),
            (NO_DECIMAL, _) if has_exponent(refusal.field) => Some(Reason::Exponent),
            (NO_DECIMAL, _) if is_word(refusal.field) => Some(Reason::Word),
            (TOO_LONG, _) => Some(too_long(refusal.field)),
            (11, 1) => Some(Reason::Columns),
            (11, _) => Some(Reason::Rows),
            (16, _) => Some(Reason::Room),
            _ => None,
        }
    }
}

impl fmt::Display for Reason {
    fn fmt(&self, f: &mut fmt::Formatter<'_>) -> fmt::Result {
        f.write_str(match self {
            Reason::HighByte => "byte above 127",
            Reason::Exponent => "exponent",
            Reason::Word => "inf or nan",
            Reason::OverDigits => "over 15 digits",
            Reason::OverDecimals => "over 22 decimals",
            Reason::Columns => "columns",
            Reason::Rows => "rows",
            Reason::Room => "room",
        })
    }
}

fn too_long(field: &[u8]) -> Reason {
    let parts = parts(field).expect("a decimal that is not malformed");
    if parts.significant().len() > MOST_SIGNIFICANT {
        Reason::OverDigits
    } else {
        Reason::OverDecimals
    }
}
