//! Batches of sequences as both sides take them: chains, a price curve and a drafter of each kind.
use crate::dice::Dice;
use crate::plans::{Batch, Drafter, Rates, SLOTS};
use oracle::config::{
    AcceptanceModel, DrafterCost, GammaPolicy, SpeculativeConfig, SwitchConstraints,
};
use oracle::lent_model::lend_loaded;

pub const PEAK: f64 = 1e15;
pub const BW: f64 = 3e12;
const EXPERTS: u32 = 64;
const EXPERTS_PER_TOK: u32 = 4;
const MOST_SEQUENCES: i32 = 1_024;

/// A batch for ours, and its chains for the Rust, one list a sequence.
pub struct Sequences {
    pub ours: Batch,
    pub chains: Vec<Vec<f64>>,
}

fn unit(dice: &mut Dice) -> f64 {
    dice.within(0, (1 << 53) - 1) as f64 / (1u64 << 53) as f64
}

/// Sequences differ in confidence; a chain falls to about the fourth power of it, however long it is.
fn chain(gamma: usize, dice: &mut Dice) -> Vec<f64> {
    let confidence = 0.5 + 0.5 * unit(dice);
    let mut survival = 1.0;
    let mut next = || {
        let each = (confidence + 0.3 * (unit(dice) - 0.5)).clamp(0.0, 1.0);
        survival *= each.powf(4.0 / gamma as f64);
        survival
    };
    (0..gamma).map(|_| next()).collect()
}

/// Prices that rise by uneven steps; with holes about a third of them is not measured, but for the first and the last.
fn curve(gamma: usize, holes: bool, dice: &mut Dice) -> Vec<f64> {
    let mut price = 0.02;
    let mut curve = vec![price];
    for depth in 1..=gamma {
        price += 0.008 / gamma as f64 * (0.5 + unit(dice));
        let hole = holes && depth < gamma && dice.within(0, 2) == 0;
        curve.push(if hole { f64::INFINITY } else { price });
    }
    curve
}

pub fn sequences(n: usize, gamma: usize, holes: bool, dice: &mut Dice) -> Sequences {
    let chains: Vec<Vec<f64>> = (0..n).map(|_| chain(gamma, dice)).collect();
    let mut slots = vec![0.0; n * SLOTS];
    for (k, chain) in chains.iter().enumerate() {
        slots[k * SLOTS..][..gamma].copy_from_slice(chain);
    }
    let ours = Batch {
        slots,
        lengths: vec![gamma as u32; n],
        curve: curve(gamma, holes, dice),
    };
    Sequences { ours, chains }
}

/// The routed experts that each number of sequences loads, lent to the Rust too.
pub fn lent_experts() -> Vec<f64> {
    let all = f64::from(EXPERTS);
    let missed = |n: i32| (1.0 - 1.0 / all).powi(EXPERTS_PER_TOK as i32 * n);
    let loaded: Vec<f64> = (0..=MOST_SEQUENCES)
        .map(|n| all * (1.0 - missed(n)))
        .collect();
    lend_loaded(EXPERTS_PER_TOK, &loaded);
    loaded
}

pub fn rates(loaded: &[f64]) -> Rates<'_> {
    Rates {
        peak: PEAK,
        bw: BW,
        loaded,
    }
}

/// One of each kind, by its name, for ours and for the Rust.
pub fn drafters() -> [(&'static str, Drafter, DrafterCost); 3] {
    let ours = |kind, sizes, counts| Drafter {
        kind,
        sizes,
        counts,
    };
    let head = DrafterCost::Autoregressive {
        dense_params: 1e8,
        expert_params: 1e7,
        num_experts: EXPERTS,
        experts_per_tok: EXPERTS_PER_TOK,
        shared_experts: 1,
    };
    let block = DrafterCost::BlockParallel {
        params: 5e8,
        block: 16,
    };
    [
        (
            "fraction",
            ours(0, [0.02, 0.0], [0; 3]),
            DrafterCost::Fraction { frac: 0.02 },
        ),
        (
            "autoregressive",
            ours(1, [1e8, 1e7], [EXPERTS, EXPERTS_PER_TOK, 1]),
            head,
        ),
        ("block", ours(2, [5e8, 0.0], [16, 0, 0]), block),
    ]
}

/// What the Rust is set to; of it the gates look at the drafter alone.
pub fn settings(gamma: usize, drafter: DrafterCost) -> SpeculativeConfig {
    SpeculativeConfig {
        gamma: gamma as u32,
        acceptance: AcceptanceModel::Constant { alpha: 0.5 },
        policy: GammaPolicy::Fixed,
        measured_cost: None,
        switch: SwitchConstraints::default(),
        drafter: Some(drafter),
    }
}
