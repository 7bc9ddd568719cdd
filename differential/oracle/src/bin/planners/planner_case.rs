//! A planner's case, and the figures of a file of them.
use crate::met::Met;
use numbers::case_file::FileCase;
use numbers::word_case::WordCase;
use std::collections::BTreeMap;
use std::fmt::{self, Display};

#[derive(Clone, Debug, PartialEq, Eq, Hash)]
pub struct PlannerCase {
    pub case: WordCase,
    /// What its plans met. No file holds it.
    pub met: Met,
    /// How many calls were asked for. No file holds it.
    pub calls: usize,
}

pub fn spoiled(turn: usize, case: PlannerCase) -> PlannerCase {
    PlannerCase {
        case: WordCase::spoiled(turn, case.case),
        ..case
    }
}

/// What is in a file.
#[derive(Debug, Default)]
pub struct Figures {
    kinds: BTreeMap<u8, usize>,
    met: Met,
}

impl FileCase for PlannerCase {
    type Figures = Figures;

    fn count_in(&self, figures: &mut Figures) {
        *figures.kinds.entry(self.case.kind).or_default() += 1;
        figures.met.add(&self.met);
    }

    fn line(&self) -> Vec<u8> {
        self.case.line()
    }

    fn split(bytes: &[u8]) -> Option<(PlannerCase, &[u8])> {
        let (case, rest) = WordCase::split(bytes)?;
        let (met, calls) = (Met::default(), 0);
        Some((PlannerCase { case, met, calls }, rest))
    }
}

impl Display for Figures {
    fn fmt(&self, f: &mut fmt::Formatter<'_>) -> fmt::Result {
        let all: usize = self.kinds.values().sum();
        write!(f, "cases {all}")?;
        for (&letter, cases) in &self.kinds {
            write!(f, "\n{} {cases}", letter as char)?;
        }
        write!(f, "\n{}", self.met)
    }
}
