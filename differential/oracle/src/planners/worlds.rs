//! Draws what planners are set to, and what their plans are lent: nothing in it is refused.
use crate::drafter::{Drafter, Rates};
use crate::drafter_values::{float_up_to, with_constant_loaded, ONE, SPECIALS};
use crate::model::{Kind, KINDS};
use crate::planners::plan::{Plan, ROOM, WHOLE};
use crate::planners::world::*;
use crate::plans::batches::chance;
use crate::plans::prices::{loaded, put_holes, Pricing};
use crate::plans::verify_price::{Mode, MODES};
use numbers::dice::Dice;
use std::rc::Rc;

/// Confidences that are no chances.
const CONFIDENCES: &[f64] = &[-0.0, 0.0, 1.0, -0.5, 1.5, 2.0, 1e300, -1e300, 5e-324];

const MOST_ROUNDS: usize = 65_536;
const MOST_ROWS: usize = 4_096;

/// From how many sequences on draws are a few, again and again.
const MANY: usize = 64;

/// How deep and how wide a planner's plans may be.
#[derive(Clone, Copy)]
pub struct Shape {
    pub gamma: u32,
    pub most: usize,
    /// Whether banks and tables are as long as they may be.
    pub is_full: bool,
}

impl Shape {
    pub fn random(dice: &mut Dice) -> Shape {
        let gamma = match dice.below(64) {
            0 => dice.pick(&[0, 63, 64]),
            1 | 2 => dice.between(17, 64) as u32,
            3..=8 => dice.between(9, 16) as u32,
            9 | 10 => 0,
            _ => dice.between(1, 8) as u32,
        };
        let most = match dice.below(512) {
            0 => 1_024,
            1 | 2 => dice.between(65, 300),
            3..=12 => dice.between(9, 64),
            _ => dice.between(1, 8),
        };
        let is_full = dice.once_in(1_000);
        Shape {
            gamma,
            most,
            is_full,
        }
    }

    pub fn small(dice: &mut Dice) -> Shape {
        Shape {
            gamma: dice.between(0, 3) as u32,
            most: dice.between(1, 3),
            is_full: false,
        }
    }
}

pub fn world(shape: Shape, policy: Policy, dice: &mut Dice) -> World {
    let pricing = Pricing::random(dice);
    let (drafter, rates) = pricing.drafter(dice);
    let kind = dice.pick(&KINDS);
    let mut world = World {
        drafter,
        rates: Rates {
            kv_delta: kv_delta(dice),
            ..rates
        },
        gamma: shape.gamma,
        kind,
        alpha: if kind == Kind::Constant {
            chance(dice)
        } else {
            0
        },
        policy,
        cooldown: 0,
        max_step: None,
        cost_ms: 0,
        prices: dice.pick(&MODES),
        has_table: dice.once_in(3),
        rows: 0,
        depth: 0,
        rounds: 0,
        lists: Default::default(),
    };
    set_switch(&mut world, dice);
    set_lists(&mut world, shape, &pricing, dice);
    if shape.is_full {
        fill(&mut world, shape, &pricing, dice);
    }
    world
}

/// As many rounds and rows as there may be, or one less.
fn fill(world: &mut World, shape: Shape, pricing: &Pricing, dice: &mut Dice) {
    if world.is_trace() {
        let rounds = MOST_ROUNDS - dice.between(0, 1);
        world.depth = world.depth.min(2);
        world.rounds = rounds as u32;
        cycle(&mut world.lists[COMMITS], rounds);
        cycle(&mut world.lists[SIGNALS], 2 * rounds);
    }
    if world.has_table {
        let rows = MOST_ROWS - dice.between(0, 1);
        let of_a_depth = rows / (shape.gamma as usize + 2) + 1;
        let row = |at: usize| [at / of_a_depth, at % of_a_depth / 2].map(|n| n as u64);
        world.rows = rows as u64;
        world.lists[DEPTHS] = (0..rows).map(|at| row(at)[0]).collect();
        world.lists[BATCHES] = (0..rows).map(|at| row(at)[1]).collect();
        let seconds = pricing.curve(rows, dice).into_iter();
        world.lists[SECONDS] = seconds.map(|seconds| seconds.max(1)).collect();
    }
}

/// The list's entries again and again; an empty list stays so.
fn cycle(list: &mut Vec<u64>, entries: usize) {
    *list = list.iter().copied().cycle().take(entries).collect();
}

fn kv_delta(dice: &mut Dice) -> u64 {
    let part = dice.below(2_001) as f64 / 1_000.0 - 1.0;
    let any = dice.pick(&[1e-9, 0.01, 0.5, 1e9]) * part;
    dice.pick(&[0.0, -0.0, 0.0, any, any, 1e9, -1e9]).to_bits()
}

/// Mostly constrained where it is of use.
fn set_switch(world: &mut World, dice: &mut Dice) {
    if world.policy != Policy::GatedAggregate && !dice.once_in(8) || dice.once_in(4) {
        world.cooldown = dice.pick(&[0, 1]);
        return;
    }
    world.cooldown = dice.pick(&[0, 1, 1, 2, 2, 3, 7, u32::MAX]);
    world.max_step = dice.pick(&[None, Some(0), Some(1), Some(1), Some(2), Some(u32::MAX)]);
    let cost: f64 = dice.pick(&[0.0, 0.1, 5.0, 33.3, 250.0, 3_600_000.0]);
    world.cost_ms = cost.to_bits();
}

fn set_lists(world: &mut World, shape: Shape, pricing: &Pricing, dice: &mut Dice) {
    if world.kind == Kind::PerPosition || dice.once_in(8) {
        let most = (shape.gamma as usize + 2).min(64);
        let count = dice.between(0, most);
        world.lists[POSITIONS] = (0..count).map(|_| chance(dice)).collect();
    }
    if world.has_table {
        set_table(world, shape, pricing, dice);
    }
    if !world.has_table || dice.once_in(8) {
        let count = shape.gamma as usize + 1 + dice.pick(&[0, 0, 2]);
        world.lists[ROOFLINE] = pricing.curve(count, dice);
        let holes = match world.prices {
            Mode::Default => 3,
            Mode::Bridged => 2,
        };
        if dice.once_in(holes) {
            put_holes(&mut world.lists[ROOFLINE], dice);
        }
    }
    if matches!(world.drafter, Drafter::Autoregressive { .. }) {
        world.lists[LOADED] = loaded(shape.most + 1 + dice.pick(&[0, 0, 2]), dice);
        with_constant_loaded(world.drafter, &mut world.lists[LOADED]);
    }
    if world.is_trace() {
        set_bank(world, shape, dice);
    }
}

/// Rows of some of the depths, and of some past gamma; one to three batches each.
fn set_table(world: &mut World, shape: Shape, pricing: &Pricing, dice: &mut Dice) {
    let holes = dice.pick(&[2, 4, 16]);
    for depth in 0..=u64::from(shape.gamma) + 1 {
        let count = match dice.once_in(holes) {
            true => 0,
            false => dice.pick(&[1, 1, 2, 3]),
        };
        let mut batch = dice.below(shape.most as u64 + 1);
        for seconds in pricing.curve(count, dice) {
            let seconds = match dice.below(32) {
                0 => float_up_to(17, dice),
                _ => seconds,
            };
            world.lists[DEPTHS].push(depth);
            world.lists[BATCHES].push(batch);
            world.lists[SECONDS].push(seconds.max(1));
            batch += dice.below(4);
        }
    }
    world.rows = world.lists[DEPTHS].len() as u64;
}

fn set_bank(world: &mut World, shape: Shape, dice: &mut Dice) {
    let deep = (shape.gamma as usize + 3).min(64);
    let depth = dice.between(1, deep);
    let rounds = match dice.below(64) {
        0 => dice.between(30, 200),
        _ if shape.most <= 3 => dice.between(1, 5),
        _ => dice.between(1, 20),
    };
    world.depth = depth as u32;
    world.rounds = rounds as u32;
    let commits = |dice: &mut Dice| match dice.below(32) {
        0 => dice.below(1 << 32),
        _ => dice.below(depth as u64 + 1),
    };
    world.lists[COMMITS] = (0..rounds).map(|_| commits(dice)).collect();
    let few = dice.once_in(3);
    let signal = |dice: &mut Dice| match dice.below(32) {
        0 => dice.pick(CONFIDENCES).to_bits(),
        _ if few => (dice.between(0, 4) as f64 / 4.0).to_bits(),
        _ => chance(dice),
    };
    if world.is_gated() || dice.once_in(8) {
        world.lists[SIGNALS] = (0..rounds * depth).map(|_| signal(dice)).collect();
    }
    if world.policy == Policy::GoodputBudget || dice.once_in(8) {
        world.lists[CURVE] = bank_curve(&world.lists[COMMITS], depth, dice);
    }
}

/// The mean of the commits at each depth, or any numbers of 0 to 64.
fn bank_curve(commits: &[u64], depth: usize, dice: &mut Dice) -> Vec<u64> {
    let is_any = dice.once_in(4);
    let at = |g: usize| {
        let sum: u64 = commits.iter().map(|&n| n.min(g as u64)).sum();
        match is_any {
            true => (dice.below(64_001) as f64 / 1_000.0).to_bits(),
            false => (sum as f64 / commits.len() as f64).to_bits(),
        }
    };
    (0..=depth).map(at).collect()
}

/// A plan under a world, with the draws that it needs.
pub fn plan(world: &Rc<World>, n: usize, dice: &mut Dice) -> Plan {
    Plan {
        world: Rc::clone(world),
        draws: draws(world, n, dice),
        indices: indices(world, n, dice),
        a: 0,
        b: 0,
        sequences: n as u32,
        end: 0,
        storage: dice.pick(&[ROOM, ROOM, ROOM, ROOM + 1, WHOLE]),
        drafts: n + dice.pick(&[0, 0, 1, 3]),
        commits: n + dice.pick(&[0, 0, 1, 3]),
    }
}

/// As many draws as the sequences use, and at times some that none looks at.
fn draws(world: &World, n: usize, dice: &mut Dice) -> Vec<u64> {
    if world.is_trace() {
        return Vec::new();
    }
    if n > MANY {
        let few: Vec<u64> = (0..dice.between(1, 40)).map(|_| draw(ONE, dice)).collect();
        return few
            .into_iter()
            .cycle()
            .take(n * world.gamma as usize)
            .collect();
    }
    let mut draws = Vec::new();
    for _ in 0..n {
        for position in 0..world.gamma as usize {
            let value = world.value(position);
            let draw = draw(value, dice);
            draws.push(draw);
            if draw >= value {
                break;
            }
        }
    }
    let more = dice.pick(&[0, 0, 1, 2]);
    draws.extend((0..more).map(|_| dice.pick(SPECIALS)));
    draws
}

/// A draw, at times the value that it is held against or the one before it.
fn draw(value: u64, dice: &mut Dice) -> u64 {
    match dice.below(12) {
        0 => value.min(ONE - 1),
        1 => value.saturating_sub(1),
        2 => 0,
        3 => ONE - 1,
        _ => ((dice.bits() >> 11) as f64 / (1u64 << 53) as f64).to_bits(),
    }
}

fn indices(world: &World, n: usize, dice: &mut Dice) -> Vec<u64> {
    if !world.is_trace() {
        return Vec::new();
    }
    let more = dice.pick(&[0, 0, 1, 2]);
    let mut indices: Vec<u64> = (0..n).map(|_| dice.below(world.rounds.into())).collect();
    indices.extend((0..more).map(|_| dice.below(1 << 32)));
    indices
}
