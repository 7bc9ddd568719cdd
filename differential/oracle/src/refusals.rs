//! The Rust's error texts in the rules' refusal numbers. Where the Rust has no such refusal (1,
//! 7, 11, 16) there is nothing to map.

/// Refusal number and row.
pub fn of_text(error: &str) -> (u32, u32) {
    if error.ends_with("no rows after monotonic sanitisation") {
        return (20, 0);
    }
    if error.ends_with("no rounds") || error.ends_with("no rows") {
        return (10, 0);
    }
    if error.ends_with("empty file") {
        return (2, 0);
    }
    if error.contains("unexpected header") {
        return (3, 1);
    }
    (of_row(error), row(error))
}

/// The row of "bad row N" or of "row N: reason".
fn row(error: &str) -> u32 {
    let at = error.rfind("row ").expect(error) + "row ".len();
    let digits = error[at..].chars().take_while(char::is_ascii_digit);
    digits.collect::<String>().parse().expect(error)
}

/// The refusal number of a fault in one row.
fn of_row(error: &str) -> u32 {
    let known = [
        ("bad row ", 4),
        ("non-positive step_seconds", 8),
        ("num_draft_tokens=0", 9),
        ("float", 6),
        ("integer", 5),
        ("invalid digit", 5),
        ("number too large", 5),
    ];
    let found = known.iter().find(|(part, _)| error.contains(part));
    found
        .unwrap_or_else(|| panic!("an error text that is not known: {error}"))
        .1
}
