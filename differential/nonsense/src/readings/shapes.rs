//! What the fields of a day file's line have to be: a shape has a letter for each of them.
use crate::readings::day_lines::{command, field_of, named, uncommented};
use crate::readings::day_lines::{ACCEPTANCES, DRAFTERS, POLICIES, PRICES};
use numbers::lines::{fields, trimmed};
use numbers::reading;

/// A field that is not of its letter, and what was expected there.
#[derive(Clone, Copy, Debug, PartialEq, Eq)]
pub struct Wrong {
    pub field: u64,
    pub expected: u64,
}

/// What was expected of a field with this letter, 0 where nothing is wrong. Without a letter no
/// field is expected.
fn field_wrong(letter: Option<u8>, field: &[u8]) -> u64 {
    let refused = |read: Result<u64, u8>| read.map_or_else(u64::from, |_| 0);
    let is_of = |names: &[&str]| names.iter().any(|name| name.as_bytes() == field);
    match letter {
        Some(b't' | b'*') => 0,
        Some(b'w') => refused(reading::whole(field)),
        Some(b'd') => refused(reading::decimal(field)),
        Some(b'n') if field == b"none" => 0,
        Some(b'n') => refused(reading::whole(field)),
        Some(b'p') if is_of(&POLICIES) => 0,
        Some(b'm') if is_of(&PRICES) => 0,
        Some(b'p' | b'm') => 3,
        _ => 2,
    }
}

/// The first field of a line that is not of its shape. A `*` lets any fields follow.
pub fn judged(line: &[u8], shape: &[u8]) -> Result<(), Wrong> {
    let fields = fields(uncommented(line));
    let mut left = shape;
    for (place, field) in fields.iter().enumerate() {
        let letter = left.first().copied();
        let expected = field_wrong(letter, trimmed(field));
        if expected > 0 {
            let field = place as u64;
            return Err(Wrong { field, expected });
        }
        if letter != Some(b'*') {
            left = &left[1..];
        }
    }
    match left.first() {
        None | Some(b'*') => Ok(()),
        Some(_) => Err(Wrong {
            field: fields.len() as u64,
            expected: 1,
        }),
    }
}

/// The shape of a line by its command's number; nothing where no name is known.
fn shape(line: &[u8]) -> Result<&'static str, Wrong> {
    let unnamed = |field, expected| Err(Wrong { field, expected });
    let second = field_of(line, 1);
    Ok(match command(line) {
        1 => "tw",
        2 => "tp",
        3 => match named(&ACCEPTANCES, second) {
            0 => "ttd",
            1 => "tt*",
            2 => "ttt",
            _ => return unnamed(1, 3),
        },
        4 => match named(&DRAFTERS, second) {
            0 => "ttd",
            1 => "ttddwww",
            2 => "ttdw",
            3 => "tt",
            _ => return unnamed(1, 3),
        },
        5 => "twnd",
        6 => "tddd",
        7 | 9 => "t*",
        8 | 15 => "tt",
        10 => "tm",
        11 => "twwdw*",
        12 | 17 => "tww",
        13 | 14 | 16 => "t",
        _ => return unnamed(0, 8),
    })
}

/// A line judged by the shape of its command; one that asks for nothing is right.
pub fn line_judged(line: &[u8]) -> Result<(), Wrong> {
    if uncommented(line).is_empty() {
        return Ok(());
    }
    judged(line, shape(line)?.as_bytes())
}

#[cfg(test)]
mod tests {
    use super::*;

    fn of(line: &str) -> (u64, u64) {
        let wrong = line_judged(line.as_bytes()).err();
        wrong.map_or((0, 0), |wrong| (wrong.field, wrong.expected))
    }

    #[test]
    fn lines_are_judged_by_their_commands() {
        assert_eq!(of("  # nothing"), (0, 0));
        assert_eq!(of("gamma, 4"), (0, 0));
        assert_eq!(of("gamma"), (1, 1));
        assert_eq!(of("gamma,4,5"), (2, 2));
        assert_eq!(of("gamma,-4"), (1, 5));
        assert_eq!(of("switch,1,none,0.5"), (0, 0));
        assert_eq!(of("switch,1,no,0.5"), (2, 5));
        assert_eq!(of("policy,gated"), (1, 3));
        assert_eq!(of("prices, bridged"), (0, 0));
        assert_eq!(of("prices,bridge"), (1, 3));
        assert_eq!(of("prices"), (1, 1));
        assert_eq!(of("drafter,none,1"), (2, 2));
        assert_eq!(of("drafter,some"), (1, 3));
        assert_eq!(of("plan,1,2,3.5,4,what,ever"), (0, 0));
        assert_eq!(of("plan,1,2,3.5"), (4, 1));
        assert_eq!(of("plans"), (0, 8));
        assert_eq!(of("settles,6, 0"), (0, 0));
        assert_eq!(of("settles,6"), (2, 1));
        assert_eq!(of("settles,6,none"), (2, 5));
        assert_eq!(of("settles,6,0,1"), (3, 2));
    }
}
