//! The first refusal of a plan, read from the rules' plan order: 12; no sequences, an empty plan; 11;
//! 16; 15; the draws in the order consumed, 13 or 14; 15 for the drawn signals; 17; 18; 19.
use crate::drafter::Drafter;
use crate::model::Kind;
use crate::planners::plan::{Plan, ROOM};
use crate::planners::world::*;
use crate::range::{in_range, in_range_or_infinite};
use crate::simulation::spec::SpecPlanner;
use numbers::second::second;

const ONE: u64 = 0x3ff0_0000_0000_0000;
const MOST_STEPS: u64 = 1_000_000;

/// What a plan finds held.
pub trait Standing {
    /// Of a worker that is held, whether switching can go on from its record.
    fn record_is_right(&self, a: u64, b: u64) -> Option<bool>;
    fn workers_held(&self) -> usize;
    /// The steps of a second that is held.
    fn steps_in(&self, second: u64) -> Option<u64>;
    fn seconds_held(&self) -> usize;
}

/// The records of a planner of the Rust are its own.
impl Standing for SpecPlanner {
    fn record_is_right(&self, a: u64, b: u64) -> Option<bool> {
        self.record_of((a as usize, b as usize)).map(|_| true)
    }

    fn workers_held(&self) -> usize {
        self.workers_held()
    }

    fn steps_in(&self, second: u64) -> Option<u64> {
        self.steps_in(second)
    }

    fn seconds_held(&self) -> usize {
        self.seconds_held()
    }
}

/// What is said of a plan before it is made.
#[derive(Clone, Copy, Debug, PartialEq, Eq)]
pub enum Judged {
    Accepted,
    Empty,
    Refused(u64),
}

pub fn judged(plan: &Plan, held: &impl Standing) -> Judged {
    let world = &*plan.world;
    if !is_set(world) {
        return Judged::Refused(12);
    }
    if plan.sequences == 0 {
        return Judged::Empty;
    }
    let number = first_of(&[
        &|| asked(plan, held),
        &|| drawn(plan),
        &|| unless(has_signals(plan), 15),
        &|| held_worker(plan, held),
        &|| held_second(plan, held),
    ]);
    if number == 0 {
        Judged::Accepted
    } else {
        Judged::Refused(number)
    }
}

/// What is refused before anything is drawn, the settings aside: 11, 16, 15; else 0.
pub fn asked(plan: &Plan, held: &impl Standing) -> u64 {
    first_of(&[
        &|| unless(is_of_size(plan), 11),
        &|| unless(has_room(plan), 16),
        &|| unless(is_valued(plan) && has_record(plan, held), 15),
    ])
}

/// The first refusal; those behind it are not looked at.
fn first_of(refusals: &[&dyn Fn() -> u64]) -> u64 {
    let numbers = refusals.iter().map(|refusal| refusal());
    numbers.into_iter().find(|&number| number > 0).unwrap_or(0)
}

fn unless(is_right: bool, number: u64) -> u64 {
    if is_right {
        0
    } else {
        number
    }
}

fn is_chance(bits: u64) -> bool {
    in_range(bits, 0.0, 1.0)
}

/// The settings, used or not.
pub fn is_set(world: &World) -> bool {
    let positions = &world.lists[POSITIONS];
    (world.kind != Kind::Constant || is_chance(world.alpha))
        && positions.len() <= 64
        && positions.iter().all(|&value| is_chance(value))
        && world.drafter.refusal() == 0
        && in_range(world.cost_ms, 0.0, 3_600_000.0)
}

fn is_of_size(plan: &Plan) -> bool {
    let world = &*plan.world;
    let has_bank = !world.is_trace() || (1..=64).contains(&world.depth) && world.rounds <= 65_536;
    let has_table = !world.has_table || world.rows <= 4_096;
    world.gamma <= 64 && plan.sequences <= 1_024 && has_bank && has_table
}

fn reads_loaded(world: &World) -> bool {
    world.policy != Policy::Fixed && matches!(world.drafter, Drafter::Autoregressive { .. })
}

/// Each list that is used has as many entries as are read of it.
fn has_room(plan: &Plan) -> bool {
    let world = &*plan.world;
    let n = plan.sequences as usize;
    let curve = world.capped() as usize + 1;
    let rows = world.rows as usize;
    let rounds = world.rounds as usize;
    let has = |list: usize, entries: usize| world.lists[list].len() >= entries;
    let has_prices = match (world.policy, world.has_table) {
        (Policy::Fixed, _) => true,
        (_, true) => has(DEPTHS, rows) && has(BATCHES, rows) && has(SECONDS, rows),
        (_, false) => has(ROOFLINE, curve),
    };
    let has_bank = !world.is_trace()
        || has(COMMITS, rounds)
            && (world.policy != Policy::GoodputBudget || has(CURVE, curve))
            && (!world.is_gated() || has(SIGNALS, rounds * world.depth as usize));
    plan.storage >= ROOM
        && plan.drafts >= n
        && plan.commits >= n
        && has_prices
        && (!reads_loaded(world) || has(LOADED, n + 1))
        && has_bank
}

/// Whether all of the first entries of a list pass.
fn all(world: &World, list: usize, entries: usize, is_right: impl Fn(u64) -> bool) -> bool {
    world.lists[list][..entries]
        .iter()
        .all(|&bits| is_right(bits))
}

/// The values that are used, of lists that have room.
fn is_valued(plan: &Plan) -> bool {
    let world = &*plan.world;
    if world.policy == Policy::Fixed {
        return true;
    }
    let curve = world.capped() as usize + 1;
    let has_prices = if world.has_table {
        is_table(&world.table().expect("columns with room"))
    } else {
        all(world, ROOFLINE, curve, |price| {
            in_range_or_infinite(price, 0.0, 1e9)
        })
    };
    let entries = plan.sequences as usize + 1;
    let has_loaded =
        !reads_loaded(world) || all(world, LOADED, entries, |entry| in_range(entry, 0.0, 1e6));
    let is_read = world.is_trace() && world.policy == Policy::GoodputBudget;
    let has_curve = !is_read || all(world, CURVE, curve, |entry| in_range(entry, 0.0, 64.0));
    world.rates.refusal() == 0 && has_prices && has_loaded && has_curve
}

/// Seconds above 0 and at most 10^17, depths ascending, batches never falling within a depth.
pub fn is_table(rows: &[(u32, u32, u64)]) -> bool {
    let are_seconds =
        |&(_, _, seconds): &(u32, u32, u64)| seconds != 0 && in_range(seconds, 0.0, 1e17);
    let ascends = |pair: &[(u32, u32, u64)]| {
        let [(depth, batch, _), (next, behind, _)] = [pair[0], pair[1]];
        depth < next || depth == next && batch <= behind
    };
    rows.iter().all(are_seconds) && rows.windows(2).all(ascends)
}

/// 13 for a draw that is absent, 14 for one that is none, in the order consumed; else 0.
fn drawn(plan: &Plan) -> u64 {
    let world = &*plan.world;
    if world.is_trace() {
        let index = |turn: usize| match plan.indices.get(turn) {
            None => 13,
            Some(&index) => unless(index < world.rounds.into(), 14),
        };
        let first = (0..plan.sequences as usize).map(index).find(|&n| n > 0);
        return first.unwrap_or(0);
    }
    let mut draws = plan.draws.iter();
    for _ in 0..plan.sequences {
        for position in 0..world.gamma as usize {
            let Some(&draw) = draws.next() else {
                return 13;
            };
            // the bits of floats with a clear sign are in the floats' order
            if draw >= ONE {
                return 14;
            }
            if draw >= world.value(position) {
                break;
            }
        }
    }
    0
}

/// The first confidences of each drawn round are finite, where a gate reads them.
fn has_signals(plan: &Plan) -> bool {
    let world = &*plan.world;
    if !world.is_trace() || !world.is_gated() {
        return true;
    }
    let is_read = |&index: &u64| {
        let start = index as usize * world.depth as usize;
        let signal = &world.lists[SIGNALS][start..start + world.capped() as usize];
        signal.iter().all(|&a| f64::from_bits(a).is_finite())
    };
    plan.indices[..plan.sequences as usize].iter().all(is_read)
}

/// Whether the plan goes through switching.
pub fn is_constrained(world: &World) -> bool {
    let is_free = world.cooldown <= 1 && world.max_step.is_none() && world.cost_ms << 1 == 0;
    world.policy == Policy::GatedAggregate && !is_free
}

/// A record that is used, and held, is one that switching can go on from.
fn has_record(plan: &Plan, held: &impl Standing) -> bool {
    !is_constrained(&plan.world) || held.record_is_right(plan.a, plan.b) != Some(false)
}

/// 17 where the worker is new and 256 are held; else 0.
fn held_worker(plan: &Plan, held: &impl Standing) -> u64 {
    let is_known = held.record_is_right(plan.a, plan.b).is_some();
    let is_right = !is_constrained(&plan.world) || is_known || held.workers_held() < 256;
    unless(is_right, 17)
}

/// 18 where the second is new and 4,096 are held, 19 where it has 1,000,000 steps; else 0.
fn held_second(plan: &Plan, held: &impl Standing) -> u64 {
    match held.steps_in(second(plan.end)) {
        None => unless(held.seconds_held() < 4_096, 18),
        Some(steps) => unless(steps < MOST_STEPS, 19),
    }
}
