//! Every pattern of holes in curves of the depths 1 to 6, under each kind of drafter, over 1 to 8
//! sequences and before both gates; the rest of each batch is random, half of them at an edge.
use crate::drafter::Drafter;
use crate::plans::batch::{Asked, Batch};
use crate::plans::batches::{with_holes, Shape};
use crate::plans::edges::{sharpen, steepen};
use crate::plans::prices::put_pattern;
use crate::plans::verify_price::Mode;
use numbers::dice::Dice;

const DEEPEST: u32 = 6;
const MOST_SEQUENCES: u64 = 8;

/// The patterns of the depths up to gamma, those of fewer depths aside.
fn patterns(gamma: u32) -> u64 {
    1 << (gamma + 1)
}

/// The patterns of all curves.
const PATTERNS: u64 = (1 << (DEEPEST + 2)) - 4;

/// A pattern, which gate weighs it, under which kind of drafter and over how many sequences.
pub const TURNS: u64 = PATTERNS * 2 * 3 * MOST_SEQUENCES;

/// The depth and the pattern at a place among all of them.
fn pattern_at(place: u64) -> (u32, u32) {
    let mut before = 0;
    for gamma in 1..DEEPEST {
        if place < before + patterns(gamma) {
            return (gamma, (place - before) as u32);
        }
        before += patterns(gamma);
    }
    (DEEPEST, (place - before) as u32)
}

fn kind(drafter: Drafter) -> u64 {
    match drafter {
        Drafter::Fraction { .. } => 0,
        Drafter::Autoregressive { .. } => 1,
        Drafter::BlockParallel { .. } => 2,
    }
}

/// The batch of a turn, which is not refused, and what is asked of it: the patterns change fastest.
pub fn batch(turn: u64, mode: Mode, dice: &mut Dice) -> (Batch, Asked) {
    let (gamma, pattern) = pattern_at(turn % PATTERNS);
    let rest = turn / PATTERNS;
    let asked = [Asked::Ragged(mode), Asked::Block(mode)][rest as usize % 2];
    let n = (rest / 6 % MOST_SEQUENCES) as usize + 1;
    loop {
        let mut batch = with_holes(Shape { n, gamma }, |_, _| {}, dice);
        if kind(batch.drafter) == rest / 2 % 3 && batch.best_depth().is_ok() {
            let is_sharp = dice.once_in(2);
            if is_sharp && dice.once_in(2) {
                steepen(&mut batch, dice);
            }
            put_pattern(&mut batch.curve, pattern);
            if is_sharp {
                sharpen(&mut batch, asked, dice);
            }
            return (batch, asked);
        }
    }
}

#[cfg(test)]
mod tests {
    use super::*;
    use crate::plans::prices::INFINITY;
    use std::collections::BTreeSet;

    /// Over random chains; where the modes have to agree the case panics if they do not.
    #[test]
    fn every_pattern_is_met_by_each_gate_drafter_and_number_of_sequences() {
        let dice = &mut Dice::new(5);
        let mut met = BTreeSet::new();
        for turn in 0..TURNS {
            let (batch, asked) = batch(turn, Mode::Bridged, dice);
            let case = batch.case(asked);
            assert_eq!(case.refusal(), 0, "{batch:x?}");
            let holes: Vec<bool> = batch.curve.iter().map(|&price| price == INFINITY).collect();
            met.insert((case.kind, kind(batch.drafter), batch.n(), holes));
        }
        let of = |gamma: u32| (1..=8).map(move |n| (gamma, n));
        let wanted: u64 = (1..=6)
            .flat_map(of)
            .map(|(gamma, _)| 6 << (gamma + 1))
            .sum();
        assert_eq!(met.len() as u64, wanted);
    }
}
