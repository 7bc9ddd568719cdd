//! What a plan answers and leaves, by the rules' plan order, the unchanged Rust, the second reading of the
//! bridged gates and the ledger's words.
use super::declared::Planned;
use super::plan_inputs::Inputs;
use super::plans::Words;
use super::settings::world_of;
use crate::ledger::{calls, workers};
use crate::turn::Turn;
use numbers::second::second;
use oracle::planners::judge::{is_constrained, judged, Judged};
use oracle::planners::plan::{Plan, Planned as OfRust};
use oracle::planners::unchanged::{committed, Unchanged};
use oracle::planners::world::{Policy, World};
use oracle::simulation::spec::probe::Record;

/// What the plan answers, and what it leaves in the words and the slots.
pub fn defined(
    inputs: &Inputs,
    words: &mut [u64],
    slots: &mut [Vec<u32>; 2],
    turn: &mut Turn,
) -> Planned {
    let refused = |refusal| Planned {
        refusal,
        used: 0,
        weighed: 0,
    };
    let Some(world) = world_of(&inputs.settings, &inputs.ask, inputs.lists.clone()) else {
        return refused(12);
    };
    let rooms = [words.len(), slots[0].len(), slots[1].len()];
    let plan = inputs.plan(world, rooms);
    match judged(&plan, &Words(words)) {
        Judged::Refused(number) => refused(number),
        Judged::Empty => {
            turn.shape = Some("of no sequences");
            refused(0)
        }
        Judged::Accepted => made(&plan, words, slots, turn),
    }
}

/// By the unchanged Rust, over the worker's record that the words have.
fn made(plan: &Plan, words: &mut [u64], slots: &mut [Vec<u32>; 2], turn: &mut Turn) -> Planned {
    let mut rust = Unchanged::new();
    let worker = (plan.a as usize, plan.b as usize);
    let is_put = is_constrained(&plan.world);
    if let Some(past) = workers::record(words, plan.a, plan.b).filter(|_| is_put) {
        let stall = f64::from_bits(past.stall);
        let record = (past.width as u32, past.rounds as u32, stall);
        rust.planner.set_record(worker, record);
    }
    let OfRust::Plan {
        used,
        weighed,
        drafts,
        commits,
    } = rust.plan(plan)
    else {
        unreachable!("the Rust refuses nothing");
    };
    slots[0][..drafts.len()].copy_from_slice(&drafts);
    slots[1][..commits.len()].copy_from_slice(&commits);
    let put = rust.planner.record_of(worker).filter(|_| is_put);
    let put = put.map(|record| (plan.a, plan.b, record_of(record)));
    let all = drafts.iter().map(|&draft| u64::from(draft)).sum();
    let committed = committed(&drafts, &commits);
    let step = [second(plan.end), all, plan.sequences.into(), committed];
    calls::plan(words, step, put);
    turn.shape = Some(shape_of(&plan.world, is_put));
    Planned {
        refusal: 0,
        used: used as usize,
        weighed: weighed as usize,
    }
}

fn record_of((width, rounds, stall): Record) -> workers::Record {
    workers::Record {
        width: width.into(),
        rounds: rounds.into(),
        stall: stall.to_bits(),
    }
}

fn shape_of(world: &World, is_put: bool) -> &'static str {
    match world.policy {
        Policy::Fixed => "Fixed",
        Policy::GoodputBudget => "GoodputBudget",
        Policy::GatedBudget if world.is_bridged() => "GatedBudget bridged",
        Policy::GatedBudget => "GatedBudget",
        Policy::GatedAggregate if is_put => "GatedAggregate constrained",
        Policy::GatedAggregate => "GatedAggregate",
    }
}
