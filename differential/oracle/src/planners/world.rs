//! What a planner is set to and what its plans are lent, draws aside. Floats by their bits, any
//! pattern, and lists of any length: what is wrong with it is for `judge` to say.
use crate::drafter::{Drafter, Rates};
use crate::model::Kind;
use crate::plans::verify_price::Mode;

#[derive(Clone, Copy, Debug, PartialEq, Eq)]
pub enum Policy {
    Fixed,
    GoodputBudget,
    GatedBudget,
    GatedAggregate,
}

pub const POLICIES: [Policy; 4] = [
    Policy::Fixed,
    Policy::GoodputBudget,
    Policy::GatedBudget,
    Policy::GatedAggregate,
];

/// The lists, in the order in which a plan takes them; draws and indices follow them.
pub const POSITIONS: usize = 0;
pub const ROOFLINE: usize = 1;
pub const DEPTHS: usize = 2;
pub const BATCHES: usize = 3;
pub const SECONDS: usize = 4;
pub const LOADED: usize = 5;
pub const COMMITS: usize = 6;
pub const SIGNALS: usize = 7;
pub const CURVE: usize = 8;

#[derive(Clone, Debug, PartialEq)]
pub struct World {
    pub drafter: Drafter,
    pub rates: Rates,
    pub gamma: u32,
    pub kind: Kind,
    /// Of use to Constant alone.
    pub alpha: u64,
    pub policy: Policy,
    pub cooldown: u32,
    pub max_step: Option<u32>,
    pub cost_ms: u64,
    /// Of use to GatedBudget alone.
    pub prices: Mode,
    pub has_table: bool,
    /// The rows of the table, and the depth and the rounds of the bank.
    pub rows: u64,
    pub depth: u32,
    pub rounds: u32,
    pub lists: [Vec<u64>; 9],
}

/// The register of the price mode. Between it and the others are those of the lists' lengths.
pub const MODE_REGISTER: u64 = 32;

impl World {
    /// The words that a case sets the registers to, from the first on.
    pub fn registers(&self) -> Vec<u64> {
        let switch = [
            self.cooldown.into(),
            self.max_step.is_some().into(),
            self.max_step.unwrap_or(0).into(),
            self.cost_ms,
        ];
        let model = [self.gamma.into(), self.kind as u64, self.alpha];
        let sources = [
            self.has_table.into(),
            self.rows,
            self.depth.into(),
            self.rounds.into(),
        ];
        [
            &self.drafter.words()[..],
            &self.rates.words(),
            &model,
            &[self.policy as u64],
            &switch,
            &sources,
        ]
        .concat()
    }

    /// Whether its plans are gated in a way that the Rust does not know.
    pub fn is_bridged(&self) -> bool {
        self.policy == Policy::GatedBudget && self.prices == Mode::Bridged
    }

    pub fn is_trace(&self) -> bool {
        self.kind == Kind::Trace
    }

    pub fn is_gated(&self) -> bool {
        matches!(self.policy, Policy::GatedBudget | Policy::GatedAggregate)
    }

    /// The depth that may be drafted to: all but Fixed cap gamma at the depth of the bank.
    pub fn capped(&self) -> u32 {
        if self.is_trace() && self.policy != Policy::Fixed {
            self.gamma.min(self.depth)
        } else {
            self.gamma
        }
    }

    /// The bits of the value of a position.
    pub fn value(&self, position: usize) -> u64 {
        match self.kind {
            Kind::Constant => self.alpha,
            Kind::PerPosition => self.lists[POSITIONS].get(position).copied().unwrap_or(0),
            Kind::Trace => 0,
        }
    }

    /// The rows of the table, where the columns have them.
    pub fn table(&self) -> Option<Vec<(u32, u32, u64)>> {
        let row = |at: usize| {
            let [depth, batch] = [DEPTHS, BATCHES].map(|list| self.lists[list].get(at));
            let seconds = *self.lists[SECONDS].get(at)?;
            Some((*depth? as u32, *batch? as u32, seconds))
        };
        (0..self.rows as usize).map(row).collect()
    }
}
