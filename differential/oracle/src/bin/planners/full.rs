//! Planners that hold as much as they may, or nearly.
use crate::planner_case::PlannerCase;
use crate::scene::Scene;
use crate::script::{Many, Script};
use numbers::dice::Dice;
use oracle::clock::{end_in, Clock};
use oracle::model::Kind;
use oracle::planners::damages::damaged;
use oracle::planners::plan::{Plan, ROOM};
use oracle::planners::world::{Policy, World, POLICIES};
use oracle::planners::worlds::{self, Shape};
use std::rc::Rc;

/// Calls on a storage that is full, or nearly: plans, damaged ones among them, and withdrawals.
fn near_full(mut scene: Scene, mut script: Script, calls: usize, dice: &mut Dice) -> PlannerCase {
    for _ in 0..calls {
        match dice.below(8) {
            0 => script.withdraw(),
            1 => script.collect(scene.worker(dice)),
            2 => script.counts(),
            3 | 4 => {
                let plan = scene.plan(dice);
                script.plan(damaged(&plan, dice));
            }
            _ => script.plan(scene.plan(dice)),
        }
    }
    scene.read(&mut script);
    script.case(b'f')
}

/// A plan of one sequence that needs no draw, at the first worker.
fn filler(world: World, (a, b): (u64, u64), dice: &mut Dice) -> Plan {
    let world = Rc::new(World { gamma: 0, ..world });
    let storage = ROOM;
    let plan = worlds::plan(&world, 1, dice);
    Plan {
        a,
        b,
        storage,
        ..plan
    }
}

/// As many seconds as there may be, or nearly.
pub fn full_seconds(mut script: Script, count: usize, dice: &mut Dice) -> PlannerCase {
    let policy = dice.pick(&POLICIES);
    let mut scene = Scene::new(Shape::small(dice), policy, dice);
    let many = Many {
        count: count as u64,
        second: dice.below(1_000_000),
        more: 0,
        step: dice.pick(&[1, 2, 60]),
    };
    scene.clock = Clock::Near {
        second: many.second,
        step: many.step,
        count: many.count,
    };
    let fixed = worlds::world(scene.shape, Policy::Fixed, dice);
    script.many(&filler(fixed, (0, 0), dice), many);
    near_full(scene, script, dice.between(10, 30), dice)
}

/// As many steps in a second as there may be, or nearly.
pub fn full_second(mut script: Script, count: usize, dice: &mut Dice) -> PlannerCase {
    let policy = dice.pick(&POLICIES);
    let mut scene = Scene::new(Shape::small(dice), policy, dice);
    let many = Many {
        count: count as u64,
        second: dice.below(100),
        more: 0,
        step: 0,
    };
    scene.clock = Clock::Near {
        second: many.second,
        step: 1,
        count: 1,
    };
    let mut fixed = worlds::world(scene.shape, Policy::Fixed, dice);
    fixed.kind = Kind::Constant;
    script.many(&filler(fixed, (0, 0), dice), many);
    near_full(scene, script, 12, dice)
}

/// As many workers as there may be, or nearly; and as many seconds, where that is said.
pub fn full_workers(
    mut script: Script,
    count: usize,
    has_seconds: bool,
    dice: &mut Dice,
) -> PlannerCase {
    let mut scene = Scene::new(Shape::small(dice), Policy::GatedAggregate, dice);
    let mut world = (*scene.world).clone();
    world.cooldown = dice.pick(&[2, 3]);
    scene.world = Rc::new(world.clone());
    let count = count as u64;
    let places = [0, count - 1, count, count + 1, count + 2];
    scene.workers = places.map(|place| (7, place)).to_vec();
    let many = Many {
        count,
        second: dice.below(100),
        more: 1,
        step: 0,
    };
    script.many(&filler(world, (7, 0), dice), many);
    if has_seconds {
        let [count, more, step] = [4_096, 0, 1];
        scene.clock = Clock::Near {
            second: many.second,
            step,
            count,
        };
        let fixed = worlds::world(scene.shape, Policy::Fixed, dice);
        let seconds = Many {
            count,
            more,
            step,
            ..many
        };
        script.many(&filler(fixed, (0, 0), dice), seconds);
        let plan = worlds::plan(&scene.world, 1, dice);
        script.plan(Plan {
            a: 8,
            end: end_in(many.second + count),
            ..plan
        });
    }
    near_full(scene, script, dice.between(10, 30), dice)
}
