//! Random planners from a seed, without end.
use crate::asked::asking;
use crate::full::{full_second, full_seconds, full_workers};
use crate::planner_case::PlannerCase;
use crate::scene::Scene;
use crate::script::Script;
use crate::settled::settling;
use numbers::dice::Dice;
use numbers::kept::Kept;
use oracle::planners::damages::{damaged, damaged_by, SORTS};
use oracle::planners::plan::Plan;
use oracle::planners::unchanged::Unchanged;
use oracle::planners::world::{Policy, World, POLICIES};
use oracle::planners::worlds::{self, Shape};
use oracle::plans::verify_price::{Mode, MODES};
use std::rc::Rc;

/// The sentence that says the space.
pub fn space(seed: u64) -> String {
    format!(
        "space: random planners of up to 60 calls, over all policies, models, drafters and both \
         sources of prices, half of them in the bridged mode and half of their rooflines with holes, \
         with altered settings, clocks that go back, end times of any pattern and \
         withdrawals, and questions how long a width takes to settle; others of damaged plans, of any refusal; \
         others of such questions alone, or of rounds until a width has settled; some with 65,536 rounds and 4,096 rows, \
         with 4,096 seconds, with 256 workers or with 1,000,000 steps in a second; seed {seed}"
    )
}

pub fn cases(seed: u64) -> impl Iterator<Item = PlannerCase> {
    let mut dice = Dice::new(seed);
    std::iter::repeat_with(move || case(Script::new(), &mut dice))
}

/// The planner at a place with the calls that are kept, and how many calls it has with all.
pub fn with_calls(seed: u64, place: usize, kept: &Kept) -> (PlannerCase, usize) {
    let mut dice = Dice::new(seed);
    for _ in 0..place {
        case(Script::new(), &mut dice);
    }
    let calls = case(Script::new(), &mut dice.clone()).calls;
    (case(Script::of(kept.clone()), &mut dice), calls)
}

/// Seven planners to two with damaged plans and one whose widths settle.
fn case(script: Script, dice: &mut Dice) -> PlannerCase {
    let shape = Shape::random(dice);
    match dice.below(1_000) {
        0 if dice.once_in(100) => full_second(script, dice.between(999_998, 1_000_001), dice),
        0 => full_seconds(script, dice.between(4_093, 4_098), dice),
        1 | 2 => full_workers(script, dice.between(253, 258), dice.once_in(3), dice),
        3..=202 => damages(script, shape, dice.between(20, 30), dice),
        203..=272 => settling(script, shape, dice.between(0, 12), dice),
        273..=302 => asking(script, shape, dice.between(5, 15), dice),
        _ => whole(script, shape, dice.pick(&[1, 3, 8, 12, 20, 60]), dice),
    }
}

/// A planner of so many calls.
pub fn whole(script: Script, shape: Shape, calls: usize, dice: &mut Dice) -> PlannerCase {
    let policy = dice.pick(&POLICIES);
    under(script, Scene::new(shape, policy, dice), calls, dice)
}

pub fn under(mut script: Script, mut scene: Scene, calls: usize, dice: &mut Dice) -> PlannerCase {
    for _ in 0..calls {
        if script.is_long() {
            break;
        }
        scene.call(&mut script, dice);
    }
    scene.read(&mut script);
    script.case(b'p')
}

/// A planner of so many damaged plans, with sound ones between them.
pub fn damages(mut script: Script, shape: Shape, plans: usize, dice: &mut Dice) -> PlannerCase {
    let policy = dice.pick(&POLICIES);
    let is_full = false;
    let mut scene = Scene::new(Shape { is_full, ..shape }, policy, dice);
    for _ in 0..plans {
        if script.is_long() {
            break;
        }
        let plan = scene.plan(dice);
        let plan = match dice.below(12) {
            0 => plan,
            _ => damaged(&plan, dice),
        };
        script.plan(plan);
    }
    scene.read(&mut script);
    script.case(b'd')
}

/// A planner of a damaged plan of each sort, with a bank where that is said.
pub fn each_damage(has_bank: bool, policy: Policy, dice: &mut Dice) -> PlannerCase {
    let shape = Shape::small(dice);
    let mut scene = Scene::new(shape, policy, dice);
    while scene.world.is_trace() != has_bank || scene.world.gamma == 0 {
        scene = Scene::new(Shape::small(dice), policy, dice);
    }
    let mut script = Script::new();
    let world = Rc::clone(&scene.world);
    for sort in 0..SORTS {
        let plan = worlds::plan(&world, 1, dice);
        script.plan(damaged_by(sort, &plan, dice));
    }
    scene.read(&mut script);
    script.case(b'd')
}

/// A planner whose gates have slots to weigh.
pub fn gating(calls: usize, dice: &mut Dice) -> PlannerCase {
    let shape = Shape {
        gamma: 3,
        most: 3,
        is_full: false,
    };
    let mut scene = Scene::new(shape, Policy::GatedBudget, dice);
    while !scene.world.is_trace() {
        scene = Scene::new(shape, Policy::GatedBudget, dice);
    }
    under(Script::new(), scene, calls, dice)
}

/// A planner whose gates cross holes: its first settings are such that a plan drafts otherwise by default.
pub fn bridging(calls: usize, dice: &mut Dice) -> PlannerCase {
    let shape = Shape {
        gamma: 4,
        most: 3,
        is_full: false,
    };
    let mut scene = Scene::new(shape, Policy::GatedBudget, dice);
    while !scene.world.is_bridged() || !part_the_modes(&scene.world, dice) {
        scene = Scene::new(shape, Policy::GatedBudget, dice);
    }
    under(Script::new(), scene, calls, dice)
}

/// Whether a plan of two sequences drafts something else in the other mode.
fn part_the_modes(world: &World, dice: &mut Dice) -> bool {
    let in_mode = |prices| {
        let other = World {
            prices,
            ..world.clone()
        };
        Rc::new(other)
    };
    let plan = worlds::plan(&in_mode(Mode::Default), 2, dice);
    let [by_default, bridged] = MODES.map(|mode| {
        let world = in_mode(mode);
        Unchanged::new().plan(&Plan {
            world,
            ..plan.clone()
        })
    });
    by_default != bridged
}

/// A planner of one worker whose width changes cost something.
pub fn switching(calls: usize, dice: &mut Dice) -> PlannerCase {
    let shape = Shape {
        gamma: 4,
        ..Shape::small(dice)
    };
    let mut scene = Scene::new(shape, Policy::GatedAggregate, dice);
    while !scene.world.is_trace() {
        scene = Scene::new(shape, Policy::GatedAggregate, dice);
    }
    let mut world = (*scene.world).clone();
    world.cooldown = dice.pick(&[0, 2]);
    world.cost_ms = 33.3f64.to_bits();
    scene.world = Rc::new(world);
    scene.workers.truncate(1);
    under(Script::new(), scene, calls, dice)
}
