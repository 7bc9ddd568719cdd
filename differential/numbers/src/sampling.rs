//! What the recorded samples share: how their cases are dealt, and what each of them has to be.
use crate::case_file::FileCase;
use crate::word_case::WordCase;
use std::collections::{BTreeMap, BTreeSet, HashSet};
use std::fmt::Debug;
use std::hash::Hash;
use std::ops::RangeInclusive;

/// How many cases of a sample its spoiled copy has.
const BEGINNING: usize = 200;

/// One case of each group in turn, and each case once, so that any beginning holds some of every
/// group.
pub fn in_turn<Case: Clone + Eq + Hash>(groups: &[Vec<Case>]) -> Vec<Case> {
    let longest = groups.iter().map(Vec::len).max().unwrap_or(0);
    let dealt =
        (0..longest).flat_map(|turn| groups.iter().filter_map(move |group| group.get(turn)));
    let mut seen = HashSet::new();
    dealt.filter(|case| seen.insert(*case)).cloned().collect()
}

/// Panics where a sample is not the same each time, has another number of cases than is wanted, or
/// more bytes than it may.
pub fn assert_steady<Case: FileCase + PartialEq + Debug>(
    recorded: impl Fn() -> Vec<Case>,
    wanted: RangeInclusive<usize>,
    most_bytes: usize,
) {
    let cases = recorded();
    assert_eq!(cases, recorded());
    assert!(wanted.contains(&cases.len()), "{} cases", cases.len());
    let bytes: usize = cases.iter().map(|case| case.line().len()).sum();
    assert!(bytes < most_bytes, "{bytes} bytes");
}

/// The refusals that the cases of each kind meet, ascending; 0 is none.
pub fn refusals_met(cases: &[WordCase]) -> BTreeMap<u8, Vec<u64>> {
    let mut met: BTreeMap<u8, BTreeSet<u64>> = BTreeMap::new();
    for case in cases {
        met.entry(case.kind).or_default().insert(case.refusal());
    }
    met.into_iter()
        .map(|(kind, numbers)| (kind, numbers.into_iter().collect()))
        .collect()
}

/// How many kinds the cases have that a spoiled copy takes.
pub fn kinds_at_the_start(cases: &[WordCase]) -> usize {
    let kinds = cases.iter().take(BEGINNING).map(|case| case.kind);
    kinds.collect::<BTreeSet<u8>>().len()
}
