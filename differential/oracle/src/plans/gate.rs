//! The two gates by definition: of the slots that are next in their sequences, the one whose turn it
//! is, found by looking at all of them.
use crate::plans::goodput::{at_least_tiny, Costs};
use crate::plans::verify_price::Mode;

/// The widths, and how many slots were weighed.
#[derive(Clone, Debug, PartialEq, Eq)]
pub struct Chosen {
    pub widths: Vec<u32>,
    pub weighed: u64,
}

fn sum(values: impl Iterator<Item = f64>) -> f64 {
    values.fold(0.0, |sum, value| sum + value)
}

/// How many sequences are as wide as d.
fn drafting(widths: &[u32], d: u32) -> u32 {
    widths.iter().filter(|&&width| width >= d).count() as u32
}

/// Expected tokens, verify tokens and drafter seconds.
#[derive(Clone, Copy)]
struct Sums {
    expected: f64,
    tokens: f64,
    drafter: f64,
}

impl Sums {
    /// Without a slot of survival s, whose draft costs `margin`.
    fn without(self, s: f64, margin: f64) -> Sums {
        Sums {
            expected: self.expected - s,
            tokens: self.tokens - 1.0,
            drafter: self.drafter - margin,
        }
    }
}

/// What a gate weighs by.
pub struct Gate<'a> {
    pub chains: &'a [Vec<f64>],
    /// Those of the depths 0 to gamma.
    pub prices: &'a [f64],
    pub mode: Mode,
    /// The batch's best depth.
    pub depth: u32,
    pub costs: Costs<'a>,
}

impl Gate<'_> {
    fn price(&self, t: f64) -> f64 {
        self.mode.price(self.prices, self.costs.n, t)
    }

    /// Whether no slot is given back for this price.
    fn is_shut(&self, price: f64) -> bool {
        self.mode == Mode::Bridged && !price.is_finite()
    }

    /// How far each sequence may be drafted.
    fn starts(&self) -> Vec<u32> {
        let lengths = self.chains.iter().map(|chain| chain.len() as u32);
        lengths.map(|length| length.min(self.depth)).collect()
    }

    fn none(&self) -> Chosen {
        Chosen {
            widths: vec![0; self.chains.len()],
            weighed: 0,
        }
    }

    /// The passes of these widths, their survivals and their tokens, each added up in order.
    fn full_draft(&self, widths: &[u32]) -> Sums {
        let passes = (1..=self.depth).map(|d| self.costs.pass(drafting(widths, d)));
        let drafted = self.chains.iter().zip(widths);
        let sums = drafted.map(|(chain, &width)| sum(chain[..width as usize].iter().copied()));
        Sums {
            expected: f64::from(self.costs.n) + sum(sums),
            tokens: sum(widths.iter().map(|&width| f64::from(width + 1))),
            drafter: sum(passes),
        }
    }

    /// The deepest slots are given back, the smallest bits first, where the rate is higher without.
    pub fn ragged(&self) -> Chosen {
        if self.depth == 0 {
            return self.none();
        }
        let mut widths = self.starts();
        let mut waits: Vec<bool> = widths.iter().map(|&width| width > 0).collect();
        let mut sums = self.full_draft(&widths);
        let mut weighed = 0;
        loop {
            let slot = |k: usize| self.chains[k][widths[k] as usize - 1];
            let waiting = (0..widths.len()).rev().filter(|&k| waits[k]);
            let Some(k) = waiting.min_by_key(|&k| slot(k).to_bits()) else {
                return Chosen { widths, weighed };
            };
            weighed += 1;
            let m = drafting(&widths, widths[k]);
            let margin = self.costs.pass(m) - self.costs.pass(m - 1);
            let fewer = sums.without(slot(k), margin);
            let with = sums.expected / at_least_tiny(self.price(sums.tokens) + sums.drafter);
            let verify = self.price(fewer.tokens);
            let seconds = (verify + sums.drafter) - margin;
            let pays = !self.is_shut(verify) && fewer.expected / at_least_tiny(seconds) > with;
            if pays {
                widths[k] -= 1;
                sums = fewer;
            }
            waits[k] = pays && widths[k] > 0;
        }
    }

    /// Slots are added, the largest bits first, until one does not pay; one without a price is passed.
    /// Bridged, where depth 0 is not measured, there is nothing to start from: all are drafted.
    pub fn block(&self) -> Chosen {
        if self.depth == 0 {
            return self.none();
        }
        if self.mode == Mode::Bridged && !self.prices[0].is_finite() {
            let widths = self.starts();
            return Chosen { widths, weighed: 0 };
        }
        let Chosen {
            mut widths,
            mut weighed,
        } = self.none();
        let most = self.starts();
        let drafter = self
            .costs
            .draft(self.depth, self.prices[self.depth as usize]);
        let mut passed = vec![false; widths.len()];
        let mut expected = f64::from(self.costs.n);
        let mut t = expected;
        loop {
            let slot = |k: usize| self.chains[k][widths[k] as usize];
            let waiting = (0..widths.len()).filter(|&k| !passed[k] && widths[k] < most[k]);
            let Some(k) = waiting.max_by_key(|&k| slot(k).to_bits()) else {
                return Chosen { widths, weighed };
            };
            weighed += 1;
            let s = slot(k);
            let next = self.price(t + 1.0) + drafter;
            if !next.is_finite() {
                passed[k] = true;
                continue;
            }
            let now = expected / at_least_tiny(self.price(t) + drafter);
            if (expected + s) / at_least_tiny(next) > now {
                widths[k] += 1;
                expected += s;
                t += 1.0;
            } else {
                return Chosen { widths, weighed };
            }
        }
    }
}

#[cfg(test)]
mod tests {
    use super::*;
    use crate::drafter::{Drafter, Rates};
    use crate::plans::goodput::expected;

    const NONE: f64 = f64::INFINITY;
    const FRACTION: Drafter = Drafter::Fraction { frac: 0 };
    const BLOCK: Drafter = Drafter::BlockParallel {
        params: 0,
        block: 1,
    };

    /// The widths and the slots weighed of the gate that suits a drafter, from the best depth on.
    fn chosen(mode: Mode, drafter: Drafter, prices: &[f64], chains: &[&[f64]]) -> (Vec<u32>, u64) {
        let chains: Vec<Vec<f64>> = chains.iter().map(|chain| chain.to_vec()).collect();
        let rates = Rates {
            peak: 1f64.to_bits(),
            bw: 1f64.to_bits(),
            kv_delta: 0,
        };
        let costs = Costs {
            drafter,
            rates,
            n: chains.len() as u32,
            loaded: &[],
        };
        let gamma = prices.len() as u32 - 1;
        let gate = Gate {
            chains: &chains,
            prices,
            mode,
            depth: costs.best_depth(&expected(&chains, gamma), prices),
            costs,
        };
        let chosen = match drafter {
            Drafter::BlockParallel { .. } => gate.block(),
            _ => gate.ragged(),
        };
        (chosen.widths, chosen.weighed)
    }

    fn both(mode: Mode, prices: &[f64], chains: &[&[f64]]) -> [(Vec<u32>, u64); 2] {
        [FRACTION, BLOCK].map(|drafter| chosen(mode, drafter, prices, chains))
    }

    /// The gates of the rules' table: their curve has no hole, and 1.25 at the deepest width in both modes.
    #[test]
    fn the_rules_examples() {
        for mode in [Mode::Default, Mode::Bridged] {
            let chosen = |drafter, [first, second]: [f64; 2]| {
                chosen(mode, drafter, &[1.0, 1.25], &[&[first], &[second]])
            };
            assert_eq!(chosen(FRACTION, [0.875, 0.125]), (vec![1, 0], 2));
            assert_eq!(chosen(BLOCK, [0.875, 0.125]), (vec![1, 0], 2));
            assert_eq!(chosen(BLOCK, [-0.0, 0.875]), (vec![0, 0], 1));
            assert_eq!(chosen(BLOCK, [0.0, 0.875]), (vec![0, 1], 2));
        }
    }

    /// Gamma 4, the depths 0 and 4 measured: by default nothing is given back and nothing is drafted.
    /// Bridged the prices are 1, 1.25, 1.5, 1.75, 2 and the rates 1, 1.6, 1.667, 1.571, 1.438.
    #[test]
    fn a_hole_is_crossed_in_the_bridged_mode_alone() {
        let prices = [1.0, NONE, NONE, NONE, 2.0];
        let chain: &[f64] = &[1.0, 0.5, 0.25, 0.125];
        let by_default = [(vec![4], 1), (vec![0], 1)];
        assert_eq!(both(Mode::Default, &prices, &[chain]), by_default);
        let bridged = [(vec![2], 3), (vec![2], 3)];
        assert_eq!(both(Mode::Bridged, &prices, &[chain]), bridged);
    }

    /// The depths 2 and 4 are measured. From 4.25 / 1.25 a slot goes to 4 / 1.125, none to 3 / 1.
    #[test]
    fn from_the_deepest_measured_depth_to_the_next_one_a_slot_is_given_back() {
        let prices = [NONE, NONE, 1.0, NONE, 1.25];
        let answer = chosen(Mode::Bridged, FRACTION, &prices, &[&[1.0, 1.0, 1.0, 0.25]]);
        assert_eq!(answer, (vec![3], 2));
    }

    /// Below depth 2 nothing is measured: each sequence's slot is weighed once and stays.
    #[test]
    fn no_slot_is_given_back_to_where_no_price_is() {
        let prices = [NONE, NONE, 1.0];
        let ragged = |chains: &[&[f64]]| chosen(Mode::Bridged, FRACTION, &prices, chains);
        assert_eq!(ragged(&[&[1.0, 0.0], &[1.0, 0.0]]), (vec![2, 2], 2));
        assert_eq!(ragged(&[&[0.5], &[]]), (vec![1, 0], 1));
    }

    /// At the mean widths 3, 2.5 and 2 the rates are 6 / 1.25, 6 / 1.1875 and 6 / 1.125; 5 / 1.0625 is less.
    #[test]
    fn two_sequences_cross_a_hole_in_turn() {
        let prices = [NONE, 1.0, NONE, 1.25];
        let chains: [&[f64]; 2] = [&[1.0, 1.0, 0.0], &[1.0, 1.0, 0.0]];
        let answer = chosen(Mode::Bridged, FRACTION, &prices, &chains);
        assert_eq!(answer, (vec![2, 2], 4));
    }

    #[test]
    fn a_block_without_a_first_price_is_drafted_whole() {
        let chains: [&[f64]; 3] = [&[1.0, 0.5, 0.5], &[0.5], &[]];
        let block = |mode| chosen(mode, BLOCK, &[NONE, 1.0, 0.875], &chains);
        assert_eq!(block(Mode::Bridged), (vec![2, 1, 0], 0));
        assert_eq!(block(Mode::Default), (vec![0, 0, 0], 2));
        let unpriced = both(Mode::Bridged, &[NONE; 3], &chains);
        assert_eq!(unpriced, [(vec![0; 3], 0), (vec![0; 3], 0)]);
    }
}
