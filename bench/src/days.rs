//! The plans of one day on both sides: the same settings, bank, table and draws; the Rust's draws are from the same lent list.
use crate::batches::{drafters, lent_experts, BW, PEAK};
use crate::dice::Dice;
use crate::plan::{Ask, Lent, Plans, Settings};
use crate::storage::Storage;
use oracle::compute::measured::probe::of_rows;
use oracle::config::{
    AcceptanceModel, DrafterCost, GammaPolicy, SpeculativeConfig, SwitchConstraints, TraceBank,
    TraceRound,
};
use oracle::request::Request;
use oracle::simulation::spec::{DraftPlan, PlanCosts, SpecPlanner};
use std::collections::BTreeMap;
use std::sync::Arc;

pub const POLICIES: [(&str, GammaPolicy); 4] = [
    ("fixed", GammaPolicy::Fixed),
    ("goodput_budget", GammaPolicy::GoodputBudget),
    ("gated_budget", GammaPolicy::GatedBudget),
    ("gated_aggregate", GammaPolicy::GatedAggregate),
];
const ALPHA: f64 = 0.8;
const COOLDOWN: u32 = 2;
const COST_MS: f64 = 5.0;
const WORKERS: u64 = 4;
const ROUNDS: usize = 4_096;
const TABLE_BATCHES: u32 = 64;
/// Plans of one second.
const A_SECOND: usize = 16;
const START: f64 = 1e6;

fn unit(dice: &mut Dice) -> f64 {
    dice.within(0, (1 << 53) - 1) as f64 / (1u64 << 53) as f64
}

/// What all the plans of a day share on both sides, and the draws of the whole day.
pub struct Day {
    settings: Settings,
    lent: Lent,
    cfg: SpeculativeConfig,
    bank: Option<Arc<TraceBank>>,
    draws: Vec<f64>,
    indices: Vec<u32>,
    n: usize,
    count: usize,
}

/// Prices that rise by uneven steps.
fn roofline(gamma: usize, dice: &mut Dice) -> Vec<f64> {
    let mut price = 0.02;
    let mut next = || {
        price += 0.008 / gamma as f64 * (0.5 + unit(dice));
        price
    };
    (0..=gamma).map(|_| next()).collect()
}

/// 64 batches at each depth, in the order that a table is lent in.
fn with_table(lent: &mut Lent, rows: u32, dice: &mut Dice) {
    for row in 0..rows {
        let (depth, batch) = (row / TABLE_BATCHES, row % TABLE_BATCHES);
        lent.depths.push(depth);
        lent.batches.push(1 + batch * 16);
        lent.seconds
            .push(0.01 + f64::from(depth * 500 + batch * 100) * 1e-6 + 1e-4 * unit(dice));
    }
}

fn with_bank(lent: &mut Lent, depth: usize, dice: &mut Dice) -> TraceBank {
    let round = |dice: &mut Dice| TraceRound {
        commits: dice.within(0, depth as u64) as u32,
        a_hat: (0..depth).map(|_| 0.5 + 0.5 * unit(dice)).collect(),
    };
    let rounds: Vec<TraceRound> = (0..ROUNDS).map(|_| round(dice)).collect();
    let sum = |g: u32| {
        rounds
            .iter()
            .map(|r| u64::from(r.commits.min(g)))
            .sum::<u64>()
    };
    let e_curve: Vec<f64> = (0..=depth as u32)
        .map(|g| sum(g) as f64 / ROUNDS as f64)
        .collect();
    lent.depth = depth as u32;
    lent.bank_commits = rounds.iter().map(|r| r.commits).collect();
    lent.signals = rounds.iter().flat_map(|r| r.a_hat.clone()).collect();
    lent.bank_curve = e_curve.clone();
    TraceBank {
        rounds,
        e_curve,
        max_depth: depth as u32,
    }
}

/// What a day's plans are: the policy by its place, whether commits come from a trace, the rows of the table (0 for none), and
/// how many plans of how many sequences of how many slots.
#[derive(Clone, Copy)]
pub struct Kind {
    pub policy: usize,
    pub trace: bool,
    pub rows: u32,
    pub n: usize,
    pub gamma: usize,
    pub count: usize,
}

/// What the Rust is set to.
fn rust_settings(kind: &Kind, drafter: DrafterCost) -> SpeculativeConfig {
    let acceptance = match kind.trace {
        true => AcceptanceModel::TraceRounds {
            path: String::new(),
        },
        false => AcceptanceModel::Constant { alpha: ALPHA },
    };
    SpeculativeConfig {
        gamma: kind.gamma as u32,
        acceptance,
        policy: POLICIES[kind.policy].1,
        measured_cost: None,
        switch: SwitchConstraints {
            cooldown_rounds: COOLDOWN,
            max_step: Some(1),
            cost_ms: COST_MS,
        },
        drafter: Some(drafter),
    }
}

impl Day {
    pub fn new(kind: &Kind) -> Day {
        let &Kind {
            n, gamma, count, ..
        } = kind;
        let dice = &mut Dice(11 + n as u64 + kind.policy as u64 * 7);
        let [(_, drafter, cost), ..] = drafters();
        let mut lent = Lent {
            roofline: roofline(gamma, dice),
            loaded: lent_experts(),
            ..Lent::default()
        };
        with_table(&mut lent, kind.rows, dice);
        let bank = kind
            .trace
            .then(|| Arc::new(with_bank(&mut lent, gamma, dice)));
        let settings = Settings {
            gamma: gamma as u32,
            model: if kind.trace { 2 } else { 0 },
            alpha: ALPHA,
            policy: kind.policy as u32,
            cooldown: COOLDOWN,
            cost_ms: COST_MS,
            drafter,
        };
        Day {
            settings,
            cfg: rust_settings(kind, cost),
            bank,
            draws: (0..n * gamma * count).map(|_| unit(dice)).collect(),
            indices: (0..n * count)
                .map(|_| dice.within(0, ROUNDS as u64 - 1) as u32)
                .collect(),
            lent,
            n,
            count,
        }
    }

    fn end(&self, k: usize) -> f64 {
        START + (k / A_SECOND) as f64
    }

    pub fn planner(&self) -> SpecPlanner {
        let indices: Vec<usize> = self.indices.iter().map(|&i| i as usize).collect();
        rand::lend(&self.draws, &indices);
        let lent = &self.lent;
        let rows: Vec<(u32, u32, f64)> = (0..lent.seconds.len())
            .map(|k| (lent.depths[k], lent.batches[k], lent.seconds[k]))
            .collect();
        let table = (!rows.is_empty()).then(|| of_rows(&rows));
        SpecPlanner::over(self.cfg.clone(), self.bank.clone(), table)
    }

    pub fn ours(&self, storage: &mut Storage, plans: &mut Plans) -> u64 {
        let (mut draws, mut indices) = (&self.draws[..], &self.indices[..]);
        let mut sum = 0;
        for k in 0..self.count {
            let ask = Ask {
                worker: k as u64 % WORKERS,
                sequences: self.n,
                end: self.end(k),
                peak: PEAK,
                bw: BW,
                draws,
                indices,
            };
            let used = plans.plan(&self.settings, &self.lent, &ask, storage);
            assert_ne!(used, u64::MAX, "a plan is refused");
            if self.settings.model == 0 {
                draws = &draws[used as usize..];
            } else {
                indices = &indices[used as usize..];
            }
            let drafts = plans.drafts.iter().zip(&plans.commits);
            sum = drafts.fold(sum, |sum, (&draft, &commits)| told(sum, draft, commits));
        }
        sum
    }

    pub fn rust(&self, planner: &mut SpecPlanner, plans: &mut Vec<DraftPlan>) -> u64 {
        self.rust_and(planner, plans, |_, _| ())
    }

    /// The same, and what the rounds accept added up at each second: the Rust leaves that to its host.
    pub fn rust_counting(&self, host: &mut Host) -> u64 {
        let Host {
            planner,
            plans,
            committed,
        } = host;
        self.rust_and(planner, plans, |end, plans| {
            let accepted = |plan: &DraftPlan| {
                u64::from(SpecPlanner::accepted(plan.draft_len, Some(plan.commits)))
            };
            *committed.entry(end as u64).or_default() += plans.iter().map(accepted).sum::<u64>();
        })
    }

    /// The Rust's plans, and what is done with the end time and the answer of each.
    fn rust_and(
        &self,
        planner: &mut SpecPlanner,
        plans: &mut Vec<DraftPlan>,
        mut then: impl FnMut(f64, &[DraftPlan]),
    ) -> u64 {
        let request = Request;
        let dec: Vec<&Request> = vec![&request; self.n];
        let roofline = |g: u32| self.lent.roofline[g as usize];
        let costs = PlanCosts {
            roofline: &roofline,
            kv_delta: 0.0,
            peak: PEAK,
            bw: BW,
        };
        let mut sum = 0;
        for k in 0..self.count {
            let worker = (0, k % WORKERS as usize);
            planner.plan_into(worker, &dec, &costs, self.end(k), plans);
            then(self.end(k), plans);
            sum = plans
                .iter()
                .fold(sum, |sum, plan| told(sum, plan.draft_len, plan.commits));
        }
        sum
    }
}

/// A planner of the Rust, the answer of its newest plan, and the committed of each second.
pub struct Host {
    pub planner: SpecPlanner,
    pub plans: Vec<DraftPlan>,
    pub committed: BTreeMap<u64, u64>,
}

impl Host {
    pub fn of(day: &Day) -> Host {
        Host {
            planner: day.planner(),
            plans: Vec::with_capacity(day.n),
            committed: BTreeMap::new(),
        }
    }

    /// The mean committed of each second, by sequence.
    pub fn mean_committed(&self) -> Vec<f64> {
        let sums = self.planner.sums().into_iter();
        let mean = |(second, _, sequences, _)| self.committed[&second] as f64 / sequences as f64;
        sums.map(mean).collect()
    }
}

fn told(sum: u64, draft: u32, commits: u32) -> u64 {
    sum.wrapping_mul(3)
        .wrapping_add(u64::from(draft) * 65 + u64::from(commits))
}
