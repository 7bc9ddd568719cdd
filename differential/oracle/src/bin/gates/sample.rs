//! The recorded sample: the same cases on every machine, each once.
use crate::random;
use numbers::dice::Dice;
use numbers::word_case::{dealt, WordCase};
use oracle::drafter::Drafter;
use oracle::plans::batch::Asked;
use oracle::plans::batches::Shape;
use oracle::plans::made::{self, bits, plain, sparse};
use oracle::plans::verify_price::{Mode, MODES};

const SEED: u64 = 1;

const DEFAULT: &[Asked] = &[Asked::Ragged(Mode::Default), Asked::Block(Mode::Default)];
const BRIDGED: &[Asked] = &[Asked::Ragged(Mode::Bridged), Asked::Block(Mode::Bridged)];

/// The sentence that says the space.
pub fn space() -> String {
    format!(
        "space: batches with special values at every place, at and beside every limit, with every \
         pattern of holes up to depth 3, bridged up to depth 4, and with equal survivals, zeros and \
         minus zeros, in room just enough and short, of up to 1,025 sequences and depth 64; random \
         small ones; in both modes of prices; seed {SEED}"
    )
}

pub fn recorded() -> Vec<WordCase> {
    let dice = &mut Dice::new(SEED);
    let both = &[DEFAULT, BRIDGED].concat();
    dealt(vec![
        examples(),
        made::specials(DEFAULT),
        sparse(made::specials(BRIDGED), 9),
        sparse(made::limits(both), 5),
        sparse(made::rooms(both), 3),
        made::holes(DEFAULT, 3),
        made::holes(BRIDGED, 4),
        sparse(made::equals(both), 9),
        made::large(&both[..3], dice),
        (0..1000)
            .map(|_| random::case(Shape::small, dice))
            .collect(),
    ])
}

/// The rules' own examples, the smallest curve with a hole on which the gates part, and the curve on
/// which the modes do: depths 0 and 4 measured.
fn examples() -> Vec<WordCase> {
    let fraction = Drafter::Fraction { frac: 0 };
    let block = Drafter::BlockParallel {
        params: 0,
        block: 16,
    };
    let none = f64::INFINITY;
    let pair = |drafter, [first, second]: [f64; 2]| {
        plain(drafter, &[bits(&[first]), bits(&[second])], &[1.0, 1.25])
    };
    let hole = |drafter| plain(drafter, &[bits(&[0.875])], &[none, 1.0]);
    let chain = bits(&[1.0, 0.5, 0.25, 0.125]);
    let bridge = |drafter| {
        plain(
            drafter,
            std::slice::from_ref(&chain),
            &[1.0, none, none, none, 2.0],
        )
    };
    let in_mode = |mode| {
        [
            pair(fraction, [0.875, 0.125]).case(Asked::Ragged(mode)),
            pair(block, [0.875, 0.125]).case(Asked::Block(mode)),
            pair(block, [-0.0, 0.875]).case(Asked::Block(mode)),
            pair(block, [0.0, 0.875]).case(Asked::Block(mode)),
            hole(fraction).case(Asked::Ragged(mode)),
            hole(block).case(Asked::Block(mode)),
            bridge(fraction).case(Asked::Ragged(mode)),
            bridge(block).case(Asked::Block(mode)),
        ]
    };
    MODES.map(in_mode).concat()
}

#[cfg(test)]
mod tests {
    use super::*;
    use numbers::sampling::{assert_steady, kinds_at_the_start, refusals_met};

    /// Two modes take more room than the other samples have.
    #[test]
    fn the_sample_is_the_same_each_time_and_of_the_size_wanted() {
        assert_steady(recorded, 2000..=6000, 3_500_000);
    }

    #[test]
    fn every_refusal_is_met() {
        let met = refusals_met(&recorded());
        let of = |kind: u8| met[&kind].clone();
        for kind in *b"rv" {
            assert_eq!(of(kind), [0, 11, 12, 15, 16], "{}", kind as char);
        }
    }

    /// The mode is the word behind gamma's, the eleventh.
    #[test]
    fn both_modes_are_met_by_both_gates() {
        for kind in *b"rv" {
            for mode in MODES {
                let is_met = |case: &WordCase| (case.kind, case.input[10]) == (kind, mode as u64);
                assert!(recorded().iter().filter(|case| is_met(case)).count() > 600);
            }
        }
    }

    #[test]
    fn a_beginning_holds_every_kind() {
        assert_eq!(kinds_at_the_start(&recorded()), 2);
    }
}
