//! The case that serves every call: words go in, and words come out.
use crate::case_file::FileCase;
use crate::sampling::in_turn;
use crate::shapes::{shape_of, Shapes};
use std::collections::BTreeMap;
use std::fmt::{self, Display};

/// How a NaN is written, whatever its sign and its payload.
pub const NAN_BITS: u64 = 0x7ff8_0000_0000_0000;

/// Bytes of the longest line: the replaying program's room has to hold a whole case.
pub const LONGEST_LINE: usize = 1_000_000;

/// Digits of a count, and bytes of a line besides its words.
const COUNT: usize = 6;
const BESIDES: usize = 16;
/// Bytes of a word, its space included.
const WORD: usize = 17;

#[derive(Clone, Debug, PartialEq, Eq, Hash)]
pub struct WordCase {
    /// The letter of the call that is asked.
    pub kind: u8,
    /// What the call is lent.
    pub input: Vec<u64>,
    /// The refusal's number, 0 for none, then all that the call answers and leaves.
    pub answer: Vec<u64>,
    /// Why the Rust answers where the rules refuse. No file holds it.
    pub alone: Option<String>,
    /// Which traits its input has. No file holds it.
    pub shape: Option<String>,
}

impl WordCase {
    pub fn new(kind: u8, input: Vec<u64>, answer: Vec<u64>) -> WordCase {
        WordCase {
            kind,
            input,
            answer,
            alone: None,
            shape: None,
        }
    }

    /// With the traits that its input has.
    pub fn with_traits(mut self, traits: &[(&str, bool)]) -> WordCase {
        self.shape = Some(shape_of(traits));
        self
    }

    /// With why the Rust answers where the rules refuse, where it does.
    pub fn with_rust_alone(mut self, why: Option<impl Display>) -> WordCase {
        self.alone = why.map(|why| why.to_string());
        self
    }

    /// The refusal's number, 0 for none.
    pub fn refusal(&self) -> u64 {
        self.answer[0]
    }

    /// The case with the lowest bit of one of its answer's words turned, the one whose turn it is.
    pub fn spoiled(turn: usize, mut case: WordCase) -> WordCase {
        let at = turn % case.answer.len();
        case.answer[at] ^= 1;
        case
    }
}

/// A text's length, then its bytes, eight to a word, the first the highest; zeros fill the last.
pub fn packed(text: &[u8]) -> Vec<u64> {
    let word = |bytes: &[u8]| {
        let mut whole = [0; 8];
        whole[..bytes.len()].copy_from_slice(bytes);
        u64::from_be_bytes(whole)
    };
    let words = text.chunks(8).map(word);
    std::iter::once(text.len() as u64).chain(words).collect()
}

/// A list's length, then its words.
pub fn listed(words: impl ExactSizeIterator<Item = u64>) -> Vec<u64> {
    std::iter::once(words.len() as u64).chain(words).collect()
}

/// The bits of a float, where every NaN has the same.
pub fn bits_of(value: f64) -> u64 {
    if value.is_nan() {
        NAN_BITS
    } else {
        value.to_bits()
    }
}

/// The cases of the groups, one of each kind of each group in turn and each case once, so that any
/// beginning holds some of every kind.
pub fn dealt(groups: Vec<Vec<WordCase>>) -> Vec<WordCase> {
    let hands: Vec<Vec<WordCase>> = groups.into_iter().flat_map(by_kind).collect();
    in_turn(&hands)
}

fn by_kind(group: Vec<WordCase>) -> impl Iterator<Item = Vec<WordCase>> {
    let mut kinds: BTreeMap<u8, Vec<WordCase>> = BTreeMap::new();
    for case in group {
        kinds.entry(case.kind).or_default().push(case);
    }
    kinds.into_values()
}

/// What is in a file, by kind.
#[derive(Debug, Default)]
pub struct Figures {
    kinds: BTreeMap<u8, KindFigures>,
}

#[derive(Debug, Default)]
struct KindFigures {
    cases: usize,
    refused: BTreeMap<u64, usize>,
    rust_alone: BTreeMap<String, usize>,
    /// Of those that are answered.
    shapes: Shapes,
}

impl FileCase for WordCase {
    type Figures = Figures;

    fn count_in(&self, figures: &mut Figures) {
        let kind = figures.kinds.entry(self.kind).or_default();
        kind.cases += 1;
        if self.refusal() > 0 {
            *kind.refused.entry(self.refusal()).or_default() += 1;
        }
        if let Some(why) = &self.alone {
            *kind.rust_alone.entry(why.clone()).or_default() += 1;
        }
        if let (0, Some(shape)) = (self.refusal(), &self.shape) {
            kind.shapes.count(shape.clone());
        }
    }

    fn line(&self) -> Vec<u8> {
        let [inputs, answers] = [self.input.len(), self.answer.len()];
        assert!(answers > 0, "an answer without a word");
        let length = BESIDES + WORD * (inputs + answers);
        assert!(length <= LONGEST_LINE, "a line over {LONGEST_LINE} bytes");
        let mut line = vec![self.kind];
        line.extend(format!(" {inputs:0COUNT$} {answers:0COUNT$}").bytes());
        for word in self.input.iter().chain(&self.answer) {
            line.push(b' ');
            line.extend(crate::case::hex(*word));
        }
        line.push(b'\n');
        line
    }

    fn split(bytes: &[u8]) -> Option<(WordCase, &[u8])> {
        let (&kind, mut rest) = bytes.split_first()?;
        let inputs = number(&mut rest, COUNT, 10)? as usize;
        let answers = number(&mut rest, COUNT, 10)? as usize;
        let mut words = || number(&mut rest, WORD - 1, 16);
        let input = (0..inputs).map(|_| words()).collect::<Option<_>>()?;
        let answer = (0..answers).map(|_| words()).collect::<Option<_>>()?;
        let case = WordCase::new(kind, input, answer);
        Some((case, rest.strip_prefix(b"\n")?))
    }
}

/// The number that a space and so many digits spell; the rest then starts behind them.
fn number(rest: &mut &[u8], digits: usize, base: u32) -> Option<u64> {
    let (spelled, after) = rest.strip_prefix(b" ")?.split_at_checked(digits)?;
    *rest = after;
    u64::from_str_radix(std::str::from_utf8(spelled).ok()?, base).ok()
}

impl Display for Figures {
    fn fmt(&self, f: &mut fmt::Formatter<'_>) -> fmt::Result {
        let all: usize = self.kinds.values().map(|kind| kind.cases).sum();
        write!(f, "cases {all}")?;
        for (&letter, kind) in &self.kinds {
            write!(f, "\n{} {}", letter as char, kind.cases)?;
            write!(f, "; refused {}", counts(&kind.refused))?;
            if !kind.rust_alone.is_empty() {
                let alone = counts(&kind.rust_alone);
                write!(f, "; answered by the Rust alone {alone}")?;
            }
            if !kind.shapes.is_empty() {
                write!(f, "; {}", kind.shapes)?;
            }
        }
        Ok(())
    }
}

/// The sum, and each key with its count.
fn counts<Key: Display>(counts: &BTreeMap<Key, usize>) -> String {
    let sum: usize = counts.values().sum();
    let each = counts.iter().map(|(key, count)| format!("{key}: {count}"));
    match sum {
        0 => "0".to_string(),
        _ => format!("{sum} ({})", each.collect::<Vec<_>>().join(", ")),
    }
}

#[cfg(test)]
mod tests {
    use super::*;

    fn case() -> WordCase {
        WordCase::new(b'x', vec![1, u64::MAX], vec![0, 0xABC, 7])
    }

    #[test]
    fn a_line_is_read_as_it_was_written() {
        let both = [case().line(), WordCase::new(b'y', vec![], vec![3]).line()].concat();
        let (first, rest) = WordCase::split(&both).unwrap();
        let (second, rest) = WordCase::split(rest).unwrap();
        assert_eq!((first, rest), (case(), &b""[..]));
        assert_eq!((second.kind, second.refusal()), (b'y', 3));
    }

    /// The places that the replaying program counts on.
    #[test]
    fn the_words_stand_at_fixed_places() {
        let written = case().line();
        let start = b"x 000002 000003 0000000000000001 ffffffffffffffff 0000000000000000 ";
        assert_eq!(written[..start.len()], start[..]);
        assert_eq!(written.len(), BESIDES + 5 * WORD);
        assert_eq!(written[written.len() - 1], b'\n');
    }

    #[test]
    fn one_word_of_the_answer_is_spoiled() {
        let words = |turn| WordCase::spoiled(turn, case()).answer;
        assert_eq!(words(0), [1, 0xABC, 7]);
        assert_eq!(words(4), [0, 0xABD, 7]);
    }

    #[test]
    fn eight_bytes_make_a_word() {
        assert_eq!(packed(b""), [0]);
        assert_eq!(packed(b"abcdefghi"), [9, 0x6162_6364_6566_6768, 0x69 << 56]);
    }
}
