//! What a plan under GatedBudget drafts where its prices are bridged, which the Rust does not do: the
//! second reading of the gates, over the chains, the curve and the depth that the Rust's planner has.
use crate::compute::MeasuredCostTable;
use crate::planners::plan::Plan;
use crate::planners::world::*;
use crate::plans::gate::{Chosen, Gate};
use crate::plans::goodput::Costs;
use crate::plans::unchanged::Asked;
use crate::plans::verify_price::Mode;
use crate::simulation::spec::probe;
use crate::unchanged::floats;

/// What a gate is asked with.
pub struct Gating<'a> {
    chains: Vec<Vec<f64>>,
    prices: Vec<f64>,
    costs: Costs<'a>,
    depth: u32,
}

impl Gating<'_> {
    /// Of a plan that is not refused.
    pub fn of<'a>(plan: &'a Plan, table: Option<&MeasuredCostTable>) -> Gating<'a> {
        let world = &*plan.world;
        let gamma = world.capped();
        let chains = probe::chains(&signals(plan), gamma);
        let prices = curve(world, plan.sequences, table);
        let costs = Costs {
            drafter: world.drafter,
            rates: world.rates,
            n: plan.sequences,
            loaded: &world.lists[LOADED],
        };
        let depth = Asked::new(costs, gamma, prices.clone()).depth(&chains);
        Gating {
            chains,
            prices,
            costs,
            depth,
        }
    }

    pub fn chosen(&self, mode: Mode) -> Chosen {
        let gate = Gate {
            chains: &self.chains,
            prices: &self.prices,
            mode,
            depth: self.depth,
            costs: self.costs,
        };
        if self.costs.drafter.is_block() {
            gate.block()
        } else {
            gate.ragged()
        }
    }
}

/// The confidences of the rounds that are drawn; a model without a bank has its own values.
fn signals(plan: &Plan) -> Vec<Vec<f64>> {
    let world = &*plan.world;
    let n = plan.sequences as usize;
    if world.is_trace() {
        let depth = world.depth as usize;
        let round = |&index: &u64| floats(&world.lists[SIGNALS][index as usize * depth..][..depth]);
        return plan.indices[..n].iter().map(round).collect();
    }
    let values: Vec<u64> = (0..world.gamma as usize).map(|d| world.value(d)).collect();
    vec![floats(&values); n]
}

/// The price curve in force. The lookups are the Rust's own; it adds and compares inside a plan, so the
/// sum and the maximum are written out here.
pub fn curve(world: &World, n: u32, table: Option<&MeasuredCostTable>) -> Vec<f64> {
    let Some(table) = table else {
        return floats(&world.lists[ROOFLINE][..=world.capped() as usize]);
    };
    let kv_delta = f64::from_bits(world.rates.kv_delta);
    let price = |t: f64| (t + kv_delta).max(0.25 * t);
    let at = |g| table.step_time(n, g).map_or(f64::INFINITY, price);
    (0..=world.capped()).map(at).collect()
}
