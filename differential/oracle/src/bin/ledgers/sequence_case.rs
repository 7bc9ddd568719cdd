//! A sequence's case, and the figures of a file of them.
use numbers::case_file::FileCase;
use numbers::shapes::Shapes;
use numbers::word_case::WordCase;
use std::collections::BTreeMap;
use std::fmt::{self, Display};

/// Words that are answered for a call, the first of them its refusal, and behind the last call.
const OF_A_CALL: usize = 4;
const BEHIND: usize = 2;

#[derive(Clone, Debug, PartialEq, Eq, Hash)]
pub struct SequenceCase(pub WordCase);

impl SequenceCase {
    /// The refusal of each call, 0 for none.
    pub fn refusals(&self) -> impl Iterator<Item = u64> + '_ {
        let calls = self.0.answer.len() - BEHIND;
        self.0.answer[..calls].iter().step_by(OF_A_CALL).copied()
    }
}

pub fn spoiled(turn: usize, case: SequenceCase) -> SequenceCase {
    SequenceCase(WordCase::spoiled(turn, case.0))
}

/// What is in a file.
#[derive(Debug, Default)]
pub struct Figures {
    kinds: BTreeMap<u8, usize>,
    calls: usize,
    longest: usize,
    refused: BTreeMap<u64, usize>,
    /// Of those on a storage of enough words.
    shapes: Shapes,
}

impl FileCase for SequenceCase {
    type Figures = Figures;

    fn count_in(&self, figures: &mut Figures) {
        *figures.kinds.entry(self.0.kind).or_default() += 1;
        let calls = self.refusals().count();
        figures.calls += calls;
        figures.longest = figures.longest.max(calls);
        for refusal in self.refusals().filter(|&refusal| refusal > 0) {
            *figures.refused.entry(refusal).or_default() += 1;
        }
        if let (0, Some(shape)) = (self.0.refusal(), &self.0.shape) {
            figures.shapes.count(shape.clone());
        }
    }

    fn line(&self) -> Vec<u8> {
        self.0.line()
    }

    fn split(bytes: &[u8]) -> Option<(SequenceCase, &[u8])> {
        let (case, rest) = WordCase::split(bytes)?;
        Some((SequenceCase(case), rest))
    }
}

impl Display for Figures {
    fn fmt(&self, f: &mut fmt::Formatter<'_>) -> fmt::Result {
        let all: usize = self.kinds.values().sum();
        write!(f, "cases {all}")?;
        for (&letter, cases) in &self.kinds {
            write!(f, "\n{} {cases}", letter as char)?;
        }
        write!(f, "\ncalls {}, at most {}", self.calls, self.longest)?;
        let refused = self.refused.iter();
        let refused: Vec<String> = refused.map(|(key, n)| format!("{key}: {n}")).collect();
        write!(f, "; refused {}", refused.join(", "))?;
        write!(f, "; {}", self.shapes)
    }
}
