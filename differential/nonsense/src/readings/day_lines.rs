//! A day file's line: its fields, its names, its lists of numbers, and the path that it names.
use crate::readings::texts::{field, find};
use numbers::lines::{fields, trimmed};
use numbers::reading;

/// Up to the first `#`, without blanks at its ends.
pub fn uncommented(line: &[u8]) -> &[u8] {
    trimmed(&line[..find(line, b'#')])
}

/// The field at a place, without blanks at its ends.
pub fn field_of(line: &[u8], place: usize) -> &[u8] {
    trimmed(field(uncommented(line), place))
}

/// The names of the commands, in the order of their numbers; `series,bits` is apart from them.
pub const COMMANDS: [(&str, u64); 16] = [
    ("gamma", 1),
    ("policy", 2),
    ("acceptance", 3),
    ("drafter", 4),
    ("switch", 5),
    ("rates", 6),
    ("roofline", 7),
    ("table", 8),
    ("loaded", 9),
    ("prices", 10),
    ("plan", 11),
    ("collect", 12),
    ("withdraw", 13),
    ("series", 14),
    ("day", 16),
    ("settles", 17),
];
pub const NOTHING: u64 = 0;
pub const SERIES_BITS: u64 = 15;
pub const NO_COMMAND: u64 = 18;

pub const POLICIES: [&str; 4] = ["fixed", "goodput_budget", "gated_budget", "gated_aggregate"];
pub const ACCEPTANCES: [&str; 3] = ["constant", "per_position", "trace"];
pub const DRAFTERS: [&str; 4] = ["fraction", "autoregressive", "block_parallel", "none"];
pub const PRICES: [&str; 2] = ["default", "bridged"];

/// The number of the command that a line gives.
pub fn command(line: &[u8]) -> u64 {
    if uncommented(line).is_empty() {
        return NOTHING;
    }
    let name = field_of(line, 0);
    if name == b"series" && field_of(line, 1) == b"bits" {
        return SERIES_BITS;
    }
    let known = COMMANDS.iter().find(|known| known.0.as_bytes() == name);
    known.map_or(NO_COMMAND, |known| known.1)
}

/// The place of a name in a list: its length where it is none of them.
pub fn named(names: &[&str], name: &[u8]) -> u64 {
    let known = names.iter().take_while(|known| known.as_bytes() != name);
    known.count() as u64
}

/// What a list of numbers comes to.
#[derive(Clone, Debug, PartialEq, Eq)]
pub enum Listed {
    Values(Vec<u64>),
    TooMany,
    Wrong { field: u64, expected: u64 },
}

/// The fields from a place on as numbers, for a buffer with so much room.
fn listed(line: &[u8], from: usize, room: usize, read: fn(&[u8]) -> Result<u64, u8>) -> Listed {
    let fields = fields(uncommented(line));
    let mut values = Vec::new();
    for (place, field) in fields.iter().enumerate().skip(from) {
        match read(trimmed(field)) {
            Ok(value) => values.push(value),
            Err(number) => {
                return Listed::Wrong {
                    field: place as u64,
                    expected: number.into(),
                }
            }
        }
    }
    if values.len() > room {
        Listed::TooMany
    } else {
        Listed::Values(values)
    }
}

/// By their bits.
pub fn decimals(line: &[u8], from: usize, room: usize) -> Listed {
    listed(line, from, room, reading::decimal)
}

pub fn wholes(line: &[u8], from: usize, room: usize) -> Listed {
    listed(line, from, room, reading::whole)
}

/// The path of a file that a day file names: beside it, but for a path from the root.
pub fn path(day: &[u8], name: &[u8]) -> Vec<u8> {
    let folder = day.iter().rposition(|&byte| byte == b'/');
    let kept = match name.first() {
        Some(b'/') => 0,
        _ => folder.map_or(0, |slash| slash + 1),
    };
    [&day[..kept], name].concat()
}

#[cfg(test)]
mod tests {
    use super::*;

    #[test]
    fn commands_are_named_before_the_comment() {
        assert_eq!(command(b" # gamma"), NOTHING);
        assert_eq!(command(b"gamma ,4#"), 1);
        assert_eq!(command(b"series, bits,x"), SERIES_BITS);
        assert_eq!(command(b"series,bit"), 14);
        assert_eq!(command(b"prices,bridged"), 10);
        assert_eq!(command(b" settles,6,0"), 17);
        assert_eq!(command(b"settle,6,0"), NO_COMMAND);
        assert_eq!(command(b","), NO_COMMAND);
        assert_eq!(named(&POLICIES, b"gated_budget"), 2);
        assert_eq!(named(&POLICIES, b"gated"), 4);
    }

    #[test]
    fn a_wrong_field_goes_before_too_little_room() {
        let wrong = Listed::Wrong {
            field: 2,
            expected: 5,
        };
        assert_eq!(wholes(b"x,1,-1", 1, 0), wrong);
        assert_eq!(wholes(b"x,1,2", 1, 1), Listed::TooMany);
        assert_eq!(wholes(b"x,1, 2 # 3", 1, 2), Listed::Values(vec![1, 2]));
        assert_eq!(wholes(b"x", 7, 0), Listed::Values(vec![]));
    }

    #[test]
    fn a_path_from_the_root_stays() {
        assert_eq!(path(b"a/b/c.day", b"d"), b"a/b/d");
        assert_eq!(path(b"a/b", b"/d"), b"/d");
        assert_eq!(path(b"c.day", b""), b"");
    }
}
