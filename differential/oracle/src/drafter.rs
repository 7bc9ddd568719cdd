//! What a drafter costs, as docs/RULES.md has it, floats by their bits.
use crate::range::{in_range, in_signed_range};
use numbers::word_case::bits_of;

const MOST_COUNT: u32 = 1_000_000;
const MOST_PARAMS: f64 = 1e18;
pub const MOST_GAMMA: u32 = 64;
pub const MOST_SEQUENCES: usize = 1024;

#[derive(Clone, Copy, Debug, PartialEq, Eq)]
pub enum Drafter {
    Fraction {
        frac: u64,
    },
    Autoregressive {
        dense_params: u64,
        expert_params: u64,
        num_experts: u32,
        experts_per_tok: u32,
        shared_experts: u32,
    },
    BlockParallel {
        params: u64,
        block: u32,
    },
}

/// The rates that a drafter streams at, and the correction of a measured price.
#[derive(Clone, Copy, Debug, PartialEq, Eq)]
pub struct Rates {
    pub peak: u64,
    pub bw: u64,
    pub kv_delta: u64,
}

impl Rates {
    pub fn words(self) -> Vec<u64> {
        vec![self.peak, self.bw, self.kv_delta]
    }

    fn are_usable(self) -> bool {
        in_range(self.peak, 1.0, 1e18) && in_range(self.bw, 1.0, 1e18)
    }

    /// 15, or 0.
    pub fn refusal(self) -> u8 {
        let is_right = self.are_usable() && in_signed_range(self.kv_delta, -1e9, 1e9);
        if is_right {
            0
        } else {
            15
        }
    }
}

/// What a cost is asked with besides the drafter and the rates.
#[derive(Clone, Copy, Debug)]
pub struct Lent<'a> {
    pub verify_c: u64,
    pub loaded: &'a [u64],
}

/// What else a call is judged by: its other sizes, its other rooms and its other values.
#[derive(Clone, Copy)]
pub struct Others {
    pub are_sizes: bool,
    pub are_rooms: bool,
    pub are_values: bool,
}

fn is_verify_cost(bits: u64) -> bool {
    in_range(bits, 0.0, 1e9)
}

impl Drafter {
    /// The kind, its floats, its counts: what a kind lacks is 0.
    pub fn words(self) -> Vec<u64> {
        match self {
            Drafter::Fraction { frac } => vec![0, frac, 0, 0, 0, 0],
            Drafter::Autoregressive {
                dense_params,
                expert_params,
                num_experts,
                experts_per_tok,
                shared_experts,
            } => {
                let counts = [num_experts, experts_per_tok, shared_experts].map(u64::from);
                [&[1, dense_params, expert_params], &counts[..]].concat()
            }
            Drafter::BlockParallel { params, block } => vec![2, params, 0, block.into(), 0, 0],
        }
    }

    pub fn is_block(self) -> bool {
        matches!(self, Drafter::BlockParallel { .. })
    }

    pub fn is_autoregressive(self) -> bool {
        matches!(self, Drafter::Autoregressive { .. })
    }

    /// 12, or 0.
    pub fn refusal(self) -> u8 {
        let is_right = match self {
            Drafter::Fraction { frac } => in_range(frac, 0.0, 1e6),
            Drafter::Autoregressive {
                dense_params,
                expert_params,
                num_experts,
                experts_per_tok,
                shared_experts,
            } => {
                let counts = [num_experts, experts_per_tok, shared_experts];
                let params = [dense_params, expert_params];
                params.iter().all(|&bits| in_range(bits, 0.0, MOST_PARAMS))
                    && counts.iter().all(|&count| count <= MOST_COUNT)
            }
            Drafter::BlockParallel { params, block } => {
                in_range(params, 0.0, MOST_PARAMS) && block <= MOST_COUNT
            }
        };
        if is_right {
            0
        } else {
            12
        }
    }

    /// 12, then 11 for the sizes, then 16 for the loaded experts and the call's other rooms, then 15
    /// for any value.
    pub fn judged(self, n: usize, rates: Rates, loaded: &[u64], others: Others) -> Result<(), u8> {
        let refusal = self.refusal();
        if refusal > 0 {
            return Err(refusal);
        }
        if !others.are_sizes || n > MOST_SEQUENCES {
            return Err(11);
        }
        let is_short = self.is_autoregressive() && loaded.len() < n + 1;
        if is_short || !others.are_rooms {
            return Err(16);
        }
        let are_loaded = !self.is_autoregressive()
            || loaded[..=n].iter().all(|&entry| in_range(entry, 0.0, 1e6));
        if rates.are_usable() && are_loaded && others.are_values {
            return Ok(());
        }
        Err(15)
    }

    /// The bits of the seconds of a draft of depth gamma over a batch.
    pub fn seconds(self, gamma: u32, batch: u32, rates: Rates, lent: Lent) -> Result<u64, u8> {
        let others = Others {
            are_sizes: gamma <= MOST_GAMMA,
            are_rooms: true,
            are_values: is_verify_cost(lent.verify_c),
        };
        self.judged(batch as usize, rates, lent.loaded, others)?;
        Ok(bits_of(self.cost(gamma, batch, rates, lent)))
    }

    /// The bits of the seconds of one pass.
    pub fn pass_seconds(self, batch: u32, rates: Rates, lent: Lent) -> Result<u64, u8> {
        let others = Others {
            are_sizes: true,
            are_rooms: true,
            are_values: is_verify_cost(lent.verify_c),
        };
        self.judged(batch as usize, rates, lent.loaded, others)?;
        Ok(bits_of(self.pass(batch, rates, lent)))
    }

    /// The bits of the seconds of a list of widths.
    pub fn ragged_seconds(self, widths: &[u32], rates: Rates, lent: Lent) -> Result<u64, u8> {
        let n = widths.len();
        let are_widths = widths.iter().all(|&width| width <= MOST_GAMMA);
        let others = Others {
            are_sizes: true,
            are_rooms: true,
            are_values: are_widths && is_verify_cost(lent.verify_c),
        };
        self.judged(n, rates, lent.loaded, others)?;
        let widest = widths.iter().copied().max().unwrap_or(0);
        if widest == 0 {
            return Ok(0);
        }
        if !self.is_autoregressive() {
            return Ok(bits_of(self.cost(widest, n as u32, rates, lent)));
        }
        let mut sum = 0.0;
        for depth in 1..=widest {
            let drafting = widths.iter().filter(|&&width| depth <= width).count();
            sum += self.pass(drafting as u32, rates, lent);
        }
        Ok(bits_of(sum))
    }

    /// The seconds of one pass of what was judged.
    pub fn pass(self, batch: u32, rates: Rates, lent: Lent) -> f64 {
        if batch == 0 || !self.is_autoregressive() {
            return 0.0;
        }
        self.cost(1, batch, rates, lent)
    }

    /// The seconds of what was judged, each operation in the order of the rules.
    pub fn cost(self, gamma: u32, batch: u32, rates: Rates, lent: Lent) -> f64 {
        if gamma == 0 {
            return 0.0;
        }
        let [peak, bw, v] = [rates.peak, rates.bw, lent.verify_c].map(f64::from_bits);
        let [g, b] = [gamma, batch].map(f64::from);
        match self {
            Drafter::Fraction { frac } => (f64::from_bits(frac) * g) * v,
            Drafter::Autoregressive {
                dense_params,
                expert_params,
                experts_per_tok,
                shared_experts,
                ..
            } => {
                let [dense, expert] = [dense_params, expert_params].map(f64::from_bits);
                let [per_tok, shared] = [experts_per_tok, shared_experts].map(f64::from);
                let loaded = f64::from_bits(lent.loaded[batch as usize]);
                let resident = dense + (shared + loaded) * expert;
                let active = dense + (per_tok + shared) * expert;
                g * larger(((2.0 * active) * b) / peak, (2.0 * resident) / bw)
            }
            Drafter::BlockParallel { params, block } => {
                let params = f64::from_bits(params);
                let compute = (((2.0 * params) * b) * f64::from(block)) / peak;
                larger(compute, (2.0 * params) / bw)
            }
        }
    }
}

/// Of two that are no NaN.
fn larger(first: f64, second: f64) -> f64 {
    if first < second {
        second
    } else {
        first
    }
}
