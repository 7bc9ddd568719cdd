//! Planners that are asked nothing but how long a width takes to settle.
use crate::planner_case::PlannerCase;
use crate::scene::Scene;
use crate::script::Script;
use numbers::dice::Dice;
use oracle::planners::damages::damaged;
use oracle::planners::questions::{question, set_switch};
use oracle::planners::world::{Policy, POLICIES};
use oracle::planners::worlds::{self, Shape};
use std::rc::Rc;

/// Questions of any sort under so many settings of any sort, damaged ones among them.
pub fn asking(mut script: Script, shape: Shape, settings: usize, dice: &mut Dice) -> PlannerCase {
    let policy = dice.pick(&POLICIES);
    let is_full = false;
    let mut scene = Scene::new(Shape { is_full, ..shape }, policy, dice);
    for _ in 0..settings {
        if script.is_long() {
            break;
        }
        let policy = dice.pick(&[Policy::GatedAggregate, policy]);
        let mut world = worlds::world(scene.shape, policy, dice);
        set_switch(&mut world, dice);
        let plan = scene.of(&Rc::new(world), scene.workers[0], dice);
        let plan = match dice.below(3) {
            0 => damaged(&plan, dice),
            _ => plan,
        };
        for _ in 0..dice.between(1, 3) {
            script.settles(&plan.world, question(&plan.world, None, dice));
        }
    }
    scene.read(&mut script);
    script.case(b's')
}
