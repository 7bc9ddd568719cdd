//! One case: a bank's text, a model or a position of one, the rules' answer to it and the unchanged
//! Rust's. Where the two have to agree and do not, making the case panics.
use crate::unchanged;
use numbers::case::{hex, Column, NO_ANSWER};
use numbers::refusal::Refusal;
use oracle::agreement::assert_agreement;
use oracle::banks::bank::{self, Bank};
use oracle::banks::lent::{Buffers, Room};
use oracle::model::{Model, Sample};

#[derive(Clone, Copy, Debug, PartialEq, Eq, Hash)]
pub enum Kind {
    /// A bank, with the room that is lent for it.
    Bank(Room),
    Model,
    /// The value of a position of a model.
    Value,
}

/// How a NaN is written, whatever its sign and its payload.
const NAN_BITS: u64 = 0x7ff8_0000_0000_0000;

#[derive(Clone, Debug, PartialEq, Eq, Hash)]
pub struct Case {
    pub kind: Kind,
    /// Of a bank the answer, the two sums and the Rust's answer; of a model what is expected and
    /// what is sampled, each by the rules and then by the Rust; of a position its value, by the rules
    /// and by the Rust.
    pub columns: Vec<Column>,
    /// The bank's text, or the model's words as hex digits.
    pub text: Vec<u8>,
}

impl Case {
    pub fn bank(text: &[u8], room: Room) -> Case {
        let ours = bank::read(text, room);
        let rust = unchanged::bank(text);
        assert_agreement(text, &ours, &rust, |bank, same| bank == same);
        let mut buffers = Buffers::lent(room);
        if let Ok(bank) = &ours {
            buffers.hold(bank);
        }
        let [first, second] = buffers.sums().map(hex);
        let answer = ours.as_ref().map_or_else(refused, size);
        let rust = rust.as_ref().map_or(NO_ANSWER, size);
        Case {
            kind: Kind::Bank(room),
            columns: vec![answer, first, second, rust],
            text: text.to_vec(),
        }
    }

    pub fn model(model: &Model) -> Case {
        let expected = model.expected();
        let sample = model.sample();
        let rust_expected = expected.map(|_| unchanged::expected(model));
        let rust_sample = sample.map(|_| unchanged::sample(model));
        assert_eq!(expected, rust_expected, "{model:x?}");
        assert_eq!(sample, rust_sample, "{model:x?}");
        Case {
            kind: Kind::Model,
            columns: vec![
                expected.map_or_else(refused_without_row, hex),
                sample.map_or_else(refused_without_row, both),
                rust_expected.map_or(NO_ANSWER, hex),
                rust_sample.map_or(NO_ANSWER, both),
            ],
            text: digits(&model.words()),
        }
    }

    /// The value of a position: of any model, in range or not.
    pub fn value(model: &Model, position: u64) -> Case {
        let place = usize::try_from(position).expect("a position of 64 bits");
        let [ours, rust] = [model.value(place), unchanged::value(model, place)].map(with_one_nan);
        assert_eq!(ours, rust, "{position} of {model:x?}");
        Case {
            kind: Kind::Value,
            columns: vec![hex(ours), hex(rust)],
            text: digits(&model.words_with(position)),
        }
    }

    /// The refusal's number that a column holds: of a bank's answer before the row, else at the end.
    pub fn refusal(&self, column: usize) -> Option<u8> {
        let column = self.columns[column];
        let at = match self.kind {
            Kind::Bank(_) => 6,
            Kind::Model | Kind::Value => 14,
        };
        let digits = std::str::from_utf8(&column[at..at + 2]).ok()?;
        digits.parse().ok().filter(|_| column[0] == b'-')
    }
}

/// Depth and rounds.
fn size(bank: &Bank) -> Column {
    hex(u64::from(bank.depth) << 32 | bank.commits.len() as u64)
}

/// Six dashes, the refusal's number and its row.
fn refused(refusal: &Refusal) -> Column {
    column(&format!("------{:02}{:08}", refusal.number, refusal.row))
}

/// 14 dashes and the refusal's number.
fn refused_without_row(number: u8) -> Column {
    column(&format!("--------------{number:02}"))
}

/// Commits and draws used.
fn both(sample: Sample) -> Column {
    hex(u64::from(sample.commits) << 32 | sample.used as u64)
}

/// The words as hex digits.
fn digits(words: &[u64]) -> Vec<u8> {
    words.iter().flat_map(|&word| hex(word)).collect()
}

/// Bits of a float, where every NaN has the same.
fn with_one_nan(bits: u64) -> u64 {
    if f64::from_bits(bits).is_nan() {
        NAN_BITS
    } else {
        bits
    }
}

fn column(text: &str) -> Column {
    text.as_bytes().try_into().expect("a column of 16 bytes")
}

#[cfg(test)]
mod tests {
    use super::*;
    use oracle::model::Kind::{Constant, PerPosition, Trace};

    #[test]
    fn columns_of_a_bank() {
        let room = Room::exactly(1, 1);
        let read = Case::bank(b"commits,a\n7,0.5\n", room);
        assert_eq!(&read.columns[0], b"0000000100000001");
        assert_eq!(read.columns[3], read.columns[0]);
        // 7, the signal 0.5, and the curve: 0.0 and 1.0
        let [half, one] = [0.5f64, 1.0].map(f64::to_bits);
        let sums = [7, 7 + half, 7 + half, 7 + half + one];
        assert_eq!(read.columns[1], hex(sums[3]));
        let all = sums.into_iter().fold(0, u64::wrapping_add);
        assert_eq!(read.columns[2], hex(all));
        let refused = Case::bank(b"commits,a\n7,nan\n", room);
        assert_eq!(&refused.columns[0], b"------0600000002");
        assert_eq!(&refused.columns[3], b"0000000100000001");
        assert_eq!(refused.refusal(0), Some(6));
        let untouched = 0xDEAD_BEEF + 3 * 42.0f64.to_bits();
        assert_eq!(refused.columns[1], hex(untouched));
        assert_eq!(Case::bank(b"\xff", room).columns[3], NO_ANSWER);
    }

    #[test]
    fn columns_of_a_model() {
        let model = Model {
            kind: Constant,
            alpha: 0.5f64.to_bits(),
            gamma: 2,
            positions: vec![],
            draws: vec![0],
        };
        let case = Case::model(&model);
        assert_eq!(&case.columns[0], b"3fe8000000000000");
        assert_eq!(&case.columns[1], b"--------------13");
        assert_eq!(case.columns[2], case.columns[0]);
        assert_eq!(case.columns[3], NO_ANSWER);
        assert_eq!((case.refusal(0), case.refusal(1)), (None, Some(13)));
        assert_eq!(case.text.len(), 6 * 16);
    }

    #[test]
    fn columns_of_a_position() {
        let minus_zero = (-0.0f64).to_bits();
        let of = |kind, position| {
            let model = Model {
                kind,
                alpha: u64::MAX,
                gamma: 0,
                positions: vec![minus_zero, 7],
                draws: vec![],
            };
            let case = Case::value(&model, position);
            assert_eq!(case.columns[0], case.columns[1]);
            assert_eq!((case.columns.len(), case.text.len()), (2, 6 * 16));
            case.columns[0]
        };
        assert_eq!(of(Constant, 0), hex(NAN_BITS));
        assert_eq!(of(PerPosition, 0), hex(minus_zero));
        assert_eq!(of(PerPosition, 1), hex(7));
        assert_eq!(of(PerPosition, 2), hex(0));
        assert_eq!(of(PerPosition, u64::MAX), hex(0));
        assert_eq!(of(Trace, 0), hex(0));
    }
}
