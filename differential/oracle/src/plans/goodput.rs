//! Goodput and the best depth, as docs/RULES.md has them, by definition.
use crate::drafter::{Drafter, Lent, Rates};

/// The sum over the chains that reach depth g of their first g survivals, each chain's added up first.
fn expected_at(chains: &[Vec<f64>], g: usize) -> f64 {
    let reaching = chains.iter().filter(|chain| chain.len() >= g);
    let sums = reaching.map(|chain| chain[..g].iter().fold(0.0, |sum, s| sum + s));
    sums.fold(0.0, |all, sum| all + sum)
}

/// The expected acceptance at the depths 0 to gamma.
pub fn expected(chains: &[Vec<f64>], gamma: u32) -> Vec<f64> {
    let at = |g| if g == 0 { 0.0 } else { expected_at(chains, g) };
    (0..=gamma as usize).map(at).collect()
}

/// What a depth is priced with besides its price.
#[derive(Clone, Copy, Debug)]
pub struct Costs<'a> {
    pub drafter: Drafter,
    pub rates: Rates,
    pub n: u32,
    pub loaded: &'a [u64],
}

impl Costs<'_> {
    /// The drafter's seconds of depth g beside a verify price.
    pub fn draft(self, g: u32, verify: f64) -> f64 {
        self.drafter
            .cost(g, self.n, self.rates, self.lent(verify.to_bits()))
    }

    /// The seconds of one pass over m sequences.
    pub fn pass(self, m: u32) -> f64 {
        self.drafter.pass(m, self.rates, self.lent(0))
    }

    fn lent(&self, verify_c: u64) -> Lent<'_> {
        let loaded = self.loaded;
        Lent { verify_c, loaded }
    }

    /// Verify and drafter; what is infinite stays.
    pub fn total(self, g: u32, verify: f64) -> f64 {
        if verify.is_infinite() {
            return verify;
        }
        verify + self.draft(g, verify)
    }

    /// The smallest depth of finite cost whose goodput no other such depth exceeds; 0 where none is.
    pub fn best_depth(self, expected: &[f64], prices: &[f64]) -> u32 {
        let costs = prices.iter().enumerate();
        let costs = costs.map(|(g, &verify)| self.total(g as u32, verify));
        let both = expected.iter().zip(costs);
        let goodputs: Vec<Option<f64>> = both
            .map(|(e, cost)| {
                let goodput = (e + f64::from(self.n)) / at_least_tiny(cost);
                cost.is_finite().then_some(goodput)
            })
            .collect();
        let is_exceeded = |goodput: f64| goodputs.iter().flatten().any(|&other| other > goodput);
        let best = goodputs
            .iter()
            .position(|goodput| goodput.is_some_and(|goodput| !is_exceeded(goodput)));
        best.unwrap_or(0) as u32
    }
}

/// At least 1e-12, which is also what a NaN gives.
pub fn at_least_tiny(seconds: f64) -> f64 {
    if seconds > 1e-12 {
        seconds
    } else {
        1e-12
    }
}
