//! Reaches the private items of `simulation/spec.rs`, as its child module.
#![warn(clippy::all)]
use super::*;

/// What a gate prices an allocation with.
pub struct Gate<'a> {
    pub curve: &'a [f64],
    pub gamma: u32,
    pub cfg: &'a SpeculativeConfig,
    pub peak: f64,
    pub bw: f64,
    pub n: usize,
}

impl Gate<'_> {
    fn context(&self) -> GateContext<'_> {
        GateContext {
            c_curve: self.curve,
            gamma: self.gamma,
            cfg: self.cfg,
            peak: self.peak,
            bw: self.bw,
            n: self.n,
        }
    }

    pub fn total_cost(&self, depth: u32) -> f64 {
        self.context().total_cost(depth)
    }

    /// The depth of the best goodput.
    pub fn best_depth(&self, expected: &[f64]) -> u32 {
        argmax_goodput(expected, &self.context())
    }

    pub fn aggregate_depth(&self, chains: &[Vec<f64>]) -> u32 {
        aggregate_depth(chains, &self.context())
    }

    /// The ragged gate's widths, and the slots it weighed.
    pub fn ragged(&self, chains: &[Vec<f64>]) -> (Vec<u32>, u64) {
        std_lent::collections::take_pops();
        let widths = gated_ragged_draft(chains, &self.context());
        (widths, std_lent::collections::take_pops())
    }

    /// The block gate's widths, and the slots it weighed.
    pub fn block(&self, chains: &[Vec<f64>]) -> (Vec<u32>, u64) {
        std_lent::collections::take_pops();
        let widths = gated_block_verify(chains, &self.context());
        (widths, std_lent::collections::take_pops())
    }
}

pub fn chains(signals: &[Vec<f64>], gamma: u32) -> Vec<Vec<f64>> {
    let round = |signal: &Vec<f64>| Round {
        a_hat: signal.clone(),
        commits: 0,
    };
    let rounds: Vec<Round> = signals.iter().map(round).collect();
    survival_chains(&rounds, gamma)
}

pub fn expected_by_depth(chains: &[Vec<f64>], gamma: u32) -> Vec<f64> {
    expected_accepted_by_depth(chains, gamma)
}

/// The verify price at the mean width that `t` tokens of `n` sequences make.
pub fn price_between(curve: &[f64], gamma: u32, n: usize, t: f64) -> f64 {
    verify_cost(curve, gamma, n, t)
}

pub fn walk(candidates: &[u32], width: u32, target: u32, max_step: Option<u32>) -> u32 {
    walk_candidates(candidates, width, target, max_step)
}

/// One worker's switching record: width, counter, stall.
pub type Record = (u32, u32, f64);

fn held(state: &AggSwitchState) -> Record {
    (state.g, state.rounds_since, state.pending_cost)
}

fn state_of((g, rounds_since, pending_cost): Record) -> AggSwitchState {
    AggSwitchState {
        g,
        rounds_since,
        pending_cost,
    }
}

/// One constrained decision over a record that may be absent: the width, and the record after.
pub fn choose(
    before: Option<Record>,
    target: u32,
    curve: &[f64],
    switch: &SwitchConstraints,
) -> (u32, Record) {
    let worker = (0, 0);
    let mut states: HashMap<WorkerKey, AggSwitchState> = HashMap::new();
    if let Some(record) = before {
        states.insert(worker, state_of(record));
    }
    let width = constrained_aggregate_choice(&mut states, worker, target, curve, switch);
    (width, held(&states[&worker]))
}

impl SpecPlanner {
    /// A planner over a bank and a table that are held already: no path is read.
    pub fn over(
        cfg: SpeculativeConfig,
        bank: Option<Arc<TraceBank>>,
        table: Option<MeasuredCostTable>,
    ) -> Self {
        let acceptance = match bank {
            Some(bank) => Acceptance::Trace(bank),
            None => Acceptance::Analytic {
                model: cfg.acceptance.clone(),
                max_depth: cfg.gamma,
            },
        };
        Self {
            cfg,
            acceptance,
            rng: StdRng::seed_from_u64(0),
            measured_cost: table,
            depth_buckets: BTreeMap::new(),
            depth_current: None,
            agg_switch: HashMap::new(),
        }
    }

    /// The same planner under other settings, over another bank and another table: what it holds
    /// stays.
    pub fn under(
        self,
        cfg: SpeculativeConfig,
        bank: Option<Arc<TraceBank>>,
        table: Option<MeasuredCostTable>,
    ) -> Self {
        Self {
            depth_buckets: self.depth_buckets,
            depth_current: self.depth_current,
            agg_switch: self.agg_switch,
            ..Self::over(cfg, bank, table)
        }
    }

    pub fn seconds_held(&self) -> usize {
        let is_new = |current: (u64, _)| !self.depth_buckets.contains_key(&current.0);
        self.depth_buckets.len() + usize::from(self.depth_current.is_some_and(is_new))
    }

    /// The steps of a second, where it is held.
    pub fn steps_in(&self, second: u64) -> Option<u64> {
        let kept = self.depth_buckets.get(&second).map(|sums| sums.2);
        let current = self.depth_current.filter(|current| current.0 == second);
        match current {
            Some((_, sums)) => Some(sums.2 + kept.unwrap_or(0)),
            None => kept,
        }
    }

    pub fn workers_held(&self) -> usize {
        self.agg_switch.len()
    }

    pub fn record_of(&self, worker: WorkerKey) -> Option<Record> {
        self.agg_switch.get(&worker).map(held)
    }

    pub fn set_record(&mut self, worker: WorkerKey, record: Record) {
        self.agg_switch.insert(worker, state_of(record));
    }

    /// One constrained decision of a worker: the width.
    pub fn choose(
        &mut self,
        worker: WorkerKey,
        target: u32,
        curve: &[f64],
        switch: &SwitchConstraints,
    ) -> u32 {
        constrained_aggregate_choice(&mut self.agg_switch, worker, target, curve, switch)
    }

    /// Counts one step in the second that its end time falls in.
    pub fn count_step(&mut self, end_time: f64, drafted: u64, n: usize) {
        self.record_depth(end_time, drafted, n)
    }

    /// What a call answers, without the steps that it counts.
    pub fn uncounted<Answer>(&mut self, call: impl FnOnce(&mut Self) -> Answer) -> Answer {
        let buckets = std::mem::take(&mut self.depth_buckets);
        let current = self.depth_current.take();
        let answer = call(self);
        self.depth_buckets = buckets;
        self.depth_current = current;
        answer
    }

    /// (second, drafts, sequences, steps) of every second held, ascending.
    pub fn sums(&self) -> Vec<(u64, u64, u64, u64)> {
        let mut buckets = self.depth_buckets.clone();
        if let Some((second, sums)) = self.depth_current {
            add_depth(&mut buckets, second, sums);
        }
        let row = |(&second, &(drafts, seqs, steps)): (&u64, &(u64, u64, u64))| {
            (second, drafts, seqs, steps)
        };
        buckets.iter().map(row).collect()
    }
}
