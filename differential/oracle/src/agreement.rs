//! Whether the rules and the Rust agree on a text.
use crate::refusals;
use numbers::refusal::{Reason, Refusal};
use std::fmt::Debug;

/// What both read is the same. What the rules refuse and the Rust reads has a listed reason. What has
/// none the Rust refuses too, with the same number and row.
pub fn assert_agreement<Read: Debug, Rust: Debug>(
    text: &[u8],
    ours: &Result<Read, Refusal>,
    rust: &Result<Rust, String>,
    are_same: impl Fn(&Read, &Rust) -> bool,
) {
    let agree = match (ours, rust) {
        (Ok(read), Ok(same)) => are_same(read, same),
        (Ok(_), Err(_)) => false,
        (Err(refusal), Ok(_)) => Reason::of(refusal).is_some(),
        (Err(refusal), Err(error)) => {
            let number_and_row = (u32::from(refusal.number), refusal.row as u32);
            Reason::of(refusal).is_some() || refusals::of_text(error) == number_and_row
        }
    };
    let text = text.escape_ascii();
    assert!(agree, "{text}: {ours:x?} {rust:x?}");
}
