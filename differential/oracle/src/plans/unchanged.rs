//! What the unchanged Rust answers.
use crate::config::{SpeculativeConfig, TraceBank};
use crate::drafter::Drafter;
use crate::lent_model::loaded_reads;
use crate::model::Model;
use crate::plans::gate::Chosen;
use crate::plans::goodput::Costs;
use crate::simulation::spec::probe;
use crate::unchanged::{acceptance, any_config, cost_of, floats, lend_loaded};
use numbers::word_case::bits_of;

/// The bits of the survival chain of a signal's first confidences.
pub fn chain(signal: &[u64], length: u32) -> Vec<u64> {
    let chains = probe::chains(&[floats(signal)], length);
    chains[0].iter().map(|&s| bits_of(s)).collect()
}

/// The bits of the expected acceptance at the depths 0 to gamma.
pub fn expected(chains: &[Vec<f64>], gamma: u32) -> Vec<u64> {
    let values = probe::expected_by_depth(chains, gamma);
    values.into_iter().map(bits_of).collect()
}

/// The bits of n times the expected acceptance of a model. The Rust multiplies inside a plan, so the
/// product is written out here.
pub fn model_expected(model: &Model, n: u32) -> Vec<u64> {
    let model_of_the_rust = acceptance(model);
    let at = |g| bits_of(f64::from(n) * model_of_the_rust.expected_accepted(g));
    (0..=model.gamma).map(at).collect()
}

/// The same of a bank's curve.
pub fn bank_expected(curve: &[u64], depth: u32, gamma: u32, n: u32) -> Vec<u64> {
    let bank = TraceBank {
        rounds: Vec::new(),
        e_curve: floats(curve),
        max_depth: depth,
    };
    let at = |g| bits_of(f64::from(n) * bank.expected_accepted(g));
    (0..=gamma).map(at).collect()
}

/// What is asked with prices, a drafter and rates.
pub struct Asked {
    cfg: SpeculativeConfig,
    prices: Vec<f64>,
    gamma: u32,
    peak: f64,
    bw: f64,
    n: usize,
}

impl Asked {
    /// Lends the loaded experts too. A fraction of zero is the drafter that is absent.
    pub fn new(costs: Costs, gamma: u32, prices: Vec<f64>) -> Asked {
        lend_loaded(costs.drafter, costs.loaded);
        let is_absent = costs.drafter == Drafter::Fraction { frac: 0 };
        let cfg = SpeculativeConfig {
            drafter: (!is_absent).then(|| cost_of(costs.drafter)),
            ..any_config()
        };
        Asked {
            cfg,
            prices,
            gamma,
            peak: f64::from_bits(costs.rates.peak),
            bw: f64::from_bits(costs.rates.bw),
            n: costs.n as usize,
        }
    }

    fn gate(&self) -> probe::Gate<'_> {
        probe::Gate {
            curve: &self.prices,
            gamma: self.gamma,
            cfg: &self.cfg,
            peak: self.peak,
            bw: self.bw,
            n: self.n,
        }
    }

    /// The answer, for which no entry past the loaded experts may have been read.
    fn checked<Answer>(&self, answer: Answer) -> Answer {
        assert_eq!(loaded_reads().1, 0, "past the loaded experts");
        answer
    }

    pub fn total_cost(&self, g: u32) -> f64 {
        self.checked(self.gate().total_cost(g))
    }

    pub fn best_depth(&self, expected: &[f64]) -> u32 {
        self.checked(self.gate().best_depth(expected))
    }

    pub fn depth(&self, chains: &[Vec<f64>]) -> u32 {
        self.checked(self.gate().aggregate_depth(chains))
    }

    pub fn ragged(&self, chains: &[Vec<f64>]) -> Chosen {
        let (widths, weighed) = self.checked(self.gate().ragged(chains));
        Chosen { widths, weighed }
    }

    pub fn block(&self, chains: &[Vec<f64>]) -> Chosen {
        let (widths, weighed) = self.checked(self.gate().block(chains));
        Chosen { widths, weighed }
    }
}
