//! A case as a line, in columns of fixed places. A text may hold any byte, so its length and not the
//! newline says where it ends.
use crate::case::{Case, Kind};
use crate::figures::Figures;
use numbers::case::Column;
use numbers::case_file::FileCase;
use oracle::banks::lent::{Room, LARGEST};

/// Bytes of the longest text that a case may have: the replaying program's room, 262,144 bytes, has
/// to hold a whole case.
pub const LONGEST_TEXT: usize = 200_000;

/// Bytes of a column, its space included.
const COLUMN: usize = 17;
/// Digits of each of the three rooms, and of the lengths.
const ROOM: usize = 5;
const BANK_LENGTH: usize = 7;
const MODEL_LENGTH: usize = 5;

impl FileCase for Case {
    type Figures = Figures;

    fn count_in(&self, figures: &mut Figures) {
        figures.count(self);
    }

    fn line(&self) -> Vec<u8> {
        let length = self.text.len();
        assert!(length <= LONGEST_TEXT, "a text over {LONGEST_TEXT} bytes");
        let (kind, sizes) = match self.kind {
            Kind::Bank(room) => (b'b', format!("{} {length:0BANK_LENGTH$}", rooms(room))),
            Kind::Model => (b'm', format!("{length:0MODEL_LENGTH$}")),
            Kind::Value => (b'a', format!("{length:0MODEL_LENGTH$}")),
        };
        let columns = self.columns.join(&b' ');
        let parts: [&[u8]; 4] = [&[kind], &columns, sizes.as_bytes(), &self.text];
        let mut line = parts.join(&b' ');
        line.push(b'\n');
        line
    }

    fn split(bytes: &[u8]) -> Option<(Case, &[u8])> {
        let (letter, mut rest) = bytes.split_first()?;
        rest = rest.strip_prefix(b" ")?;
        let columns = columns(&mut rest, if *letter == b'a' { 2 } else { 4 })?;
        let kind = match letter {
            b'b' => Kind::Bank(Room {
                commits: number(&mut rest, ROOM)?,
                signals: number(&mut rest, ROOM)?,
                curve: number(&mut rest, ROOM)?,
            }),
            b'm' => Kind::Model,
            b'a' => Kind::Value,
            _ => return None,
        };
        let digits = match kind {
            Kind::Bank(_) => BANK_LENGTH,
            Kind::Model | Kind::Value => MODEL_LENGTH,
        };
        let length = number(&mut rest, digits)?;
        let (text, after) = rest.split_at_checked(length)?;
        let case = Case {
            kind,
            columns,
            text: text.to_vec(),
        };
        Some((case, after.strip_prefix(b"\n")?))
    }
}

fn rooms(room: Room) -> String {
    assert_eq!(room, room.capped(), "more room than {LARGEST:?}");
    let sizes = [room.commits, room.signals, room.curve];
    sizes.map(|size| format!("{size:0ROOM$}")).join(" ")
}

/// So many columns; the rest then starts behind them and a space.
fn columns(rest: &mut &[u8], count: usize) -> Option<Vec<Column>> {
    let (columns, after) = rest.split_at_checked(COLUMN * count)?;
    *rest = after;
    let column = |bytes: &[u8]| bytes.strip_suffix(b" ")?.try_into().ok();
    columns.chunks(COLUMN).map(column).collect()
}

/// The number that so many digits spell; the rest then starts behind them and a space.
fn number(rest: &mut &[u8], digits: usize) -> Option<usize> {
    let (spelled, after) = rest.split_at_checked(digits)?;
    *rest = after.strip_prefix(b" ")?;
    std::str::from_utf8(spelled).ok()?.parse().ok()
}

#[cfg(test)]
mod tests {
    use super::*;
    use oracle::model::{Kind::Trace, Model};

    fn bank(text: &[u8]) -> Case {
        Case::bank(text, Room::exactly(1, 1))
    }

    fn model() -> Model {
        Model {
            kind: Trace,
            alpha: 0,
            gamma: 1,
            positions: vec![0],
            draws: vec![0, u64::MAX],
        }
    }

    #[test]
    fn a_line_is_read_as_it_was_written() {
        let cases = [
            bank(b""),
            bank(b"commits,a\n1,2\n\r"),
            Case::model(&model()),
            Case::value(&model(), u64::MAX),
            bank(b"\n"),
        ];
        for case in cases {
            let both = [case.line(), case.line()].concat();
            let (read, after) = Case::split(&both).unwrap();
            assert_eq!((&read, after), (&case, &case.line()[..]));
        }
    }

    /// The places that the replaying program counts on.
    #[test]
    fn the_columns_stand_at_fixed_places() {
        let written = bank(b"commits,a\n1,2\n").line();
        let sizes = b" 00001 00001 00002 0000014 commits,a\n1,2\n\n";
        assert_eq!((written[0], &written[69..]), (b'b', &sizes[..]));
        let written = Case::model(&model()).line();
        assert_eq!((written[0], &written[69..76]), (b'm', &b" 00128 "[..]));
        assert_eq!(written.len(), 77 + 128);
        let written = Case::value(&model(), 1).line();
        assert_eq!((written[0], &written[35..42]), (b'a', &b" 00080 "[..]));
        assert_eq!(written.len(), 43 + 80);
    }
}
