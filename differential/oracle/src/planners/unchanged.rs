//! The unchanged Rust's planner, asked with what a plan is lent. Where prices are bridged, the drafts are
//! those of the second reading, and the planner counts them.
use crate::compute::measured::probe;
use crate::compute::MeasuredCostTable;
use crate::config::{GammaPolicy, SpeculativeConfig, SwitchConstraints, TraceBank, TraceRound};
use crate::drafter::Drafter;
use crate::lent_model::loaded_reads;
use crate::model::Model;
use crate::planners::bridged::Gating;
use crate::planners::plan::{Plan, Planned};
use crate::planners::world::*;
use crate::plans::gate::Chosen;
use crate::plans::verify_price::Mode;
use crate::request::Request;
use crate::simulation::spec::{PlanCosts, SpecPlanner};
use crate::unchanged::{acceptance, any_config, cost_of, floats, lend_loaded};
use std::rc::Rc;
use std::sync::Arc;
use std_lent::collections::take_pops;

pub struct Unchanged {
    pub planner: SpecPlanner,
    world: Option<Rc<World>>,
}

impl Unchanged {
    /// One that holds nothing.
    pub fn new() -> Unchanged {
        let planner = SpecPlanner::over(any_config(), None, None);
        let world = None;
        Unchanged { planner, world }
    }

    /// Makes a plan that the rules do not refuse.
    pub fn plan(&mut self, plan: &Plan) -> Planned {
        self.come_under(&plan.world);
        if plan.world.is_bridged() {
            return self.bridged(plan);
        }
        planned(&mut self.planner, plan)
    }

    /// The Rust makes it by default and counts nothing: draws and commits are its own, since no gate has
    /// a part in them. What it drafts by default is also what the second reading does.
    fn bridged(&mut self, plan: &Plan) -> Planned {
        let by_default = self.planner.uncounted(|planner| planned(planner, plan));
        let Planned::Plan {
            used,
            weighed,
            drafts: widths,
            commits,
        } = by_default
        else {
            unreachable!("the Rust refuses nothing");
        };
        let gating = Gating::of(plan, self.planner.measured_cost());
        let read = gating.chosen(Mode::Default);
        assert_eq!(read, Chosen { widths, weighed }, "{plan:x?}");
        let Chosen { widths, weighed } = gating.chosen(Mode::Bridged);
        let all = widths.iter().map(|&width| u64::from(width)).sum();
        let end = f64::from_bits(plan.end);
        self.planner.count_step(end, all, widths.len());
        Planned::Plan {
            used,
            weighed,
            drafts: widths,
            commits,
        }
    }

    fn come_under(&mut self, world: &Rc<World>) {
        if self
            .world
            .as_ref()
            .is_some_and(|held| Rc::ptr_eq(held, world))
        {
            return;
        }
        let emptied = SpecPlanner::over(any_config(), None, None);
        let planner = std::mem::replace(&mut self.planner, emptied);
        self.planner = planner.under(config(world), bank(world), table(world));
        self.world = Some(Rc::clone(world));
    }
}

/// What a planner of the Rust plans under the settings that it has.
fn planned(planner: &mut SpecPlanner, plan: &Plan) -> Planned {
    let world = &*plan.world;
    let n = plan.sequences as usize;
    if world.policy != Policy::Fixed {
        let read = world.lists[LOADED].len().min(n + 1);
        lend_loaded(world.drafter, &world.lists[LOADED][..read]);
    }
    let indices: Vec<usize> = plan.indices.iter().map(|&index| index as usize).collect();
    rand::lend(&floats(&plan.draws), &indices);
    let costs = PlanCosts {
        roofline: &|g| f64::from_bits(world.lists[ROOFLINE][g as usize]),
        kv_delta: f64::from_bits(world.rates.kv_delta),
        peak: f64::from_bits(world.rates.peak),
        bw: f64::from_bits(world.rates.bw),
    };
    let worker = (plan.a as usize, plan.b as usize);
    let requests = vec![&Request; n];
    take_pops();
    let end = f64::from_bits(plan.end);
    let plans = planner.plan(worker, &requests, &costs, end);
    let weighed = take_pops();
    let used = rand::used();
    assert_eq!((used.absent, used.out_of_range), (0, 0), "{plan:x?}");
    assert_eq!(loaded_reads().1, 0, "past the loaded experts: {plan:x?}");
    Planned::Plan {
        used: (used.floats + used.indices) as u64,
        weighed,
        drafts: plans.iter().map(|plan| plan.draft_len).collect(),
        commits: plans.iter().map(|plan| plan.commits).collect(),
    }
}

/// What a plan's rounds accept of its drafts, by the Rust's own `accepted`: the Rust does not add it up.
pub fn committed(drafts: &[u32], commits: &[u32]) -> u64 {
    assert_eq!(drafts.len(), commits.len(), "a round for each draft");
    let rounds = drafts.iter().zip(commits);
    let accepted = |(&draft, &commits)| u64::from(SpecPlanner::accepted(draft, Some(commits)));
    rounds.map(accepted).sum()
}

fn config(world: &World) -> SpeculativeConfig {
    let model = Model {
        kind: world.kind,
        alpha: world.alpha,
        gamma: world.gamma,
        positions: world.lists[POSITIONS].clone(),
        draws: Vec::new(),
    };
    let is_absent = world.drafter == Drafter::Fraction { frac: 0 };
    SpeculativeConfig {
        gamma: world.gamma,
        acceptance: acceptance(&model),
        policy: match world.policy {
            Policy::Fixed => GammaPolicy::Fixed,
            Policy::GoodputBudget => GammaPolicy::GoodputBudget,
            Policy::GatedBudget => GammaPolicy::GatedBudget,
            Policy::GatedAggregate => GammaPolicy::GatedAggregate,
        },
        measured_cost: None,
        switch: switch_of(world),
        drafter: (!is_absent).then(|| cost_of(world.drafter)),
    }
}

pub fn switch_of(world: &World) -> SwitchConstraints {
    SwitchConstraints {
        cooldown_rounds: world.cooldown,
        max_step: world.max_step,
        cost_ms: f64::from_bits(world.cost_ms),
    }
}

/// The bank of a trace. What a policy does not read may be missing from it.
fn bank(world: &World) -> Option<Arc<TraceBank>> {
    let depth = world.depth as usize;
    let round = |at: usize| TraceRound {
        a_hat: floats(
            world.lists[SIGNALS]
                .get(at * depth..(at + 1) * depth)
                .unwrap_or(&[]),
        ),
        commits: world.lists[COMMITS][at] as u32,
    };
    world.is_trace().then(|| {
        Arc::new(TraceBank {
            rounds: (0..world.rounds as usize).map(round).collect(),
            e_curve: floats(&world.lists[CURVE]),
            max_depth: world.depth,
        })
    })
}

/// The table as its rows stand; where its columns are short no plan reads it.
pub fn table(world: &World) -> Option<MeasuredCostTable> {
    if !world.has_table {
        return None;
    }
    let rows = world.table().unwrap_or_default();
    let row = |(depth, batch, seconds): (u32, u32, u64)| (depth, batch, f64::from_bits(seconds));
    let rows: Vec<(u32, u32, f64)> = rows.into_iter().map(row).collect();
    Some(probe::of_rows(&rows))
}
