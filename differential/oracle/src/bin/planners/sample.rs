//! The recorded sample: the same cases on every machine.
use crate::asked::asking;
use crate::full::{full_second, full_seconds, full_workers};
use crate::planner_case::PlannerCase;
use crate::random::{bridging, damages, each_damage, gating, switching, under};
use crate::scene::Scene;
use crate::script::Script;
use crate::settled::settling;
use crate::sharp::sharp;
use numbers::dice::Dice;
use oracle::planners::world::POLICIES;
use oracle::planners::worlds::Shape;

const SEED: u64 = 18;

/// The sentence that says the space.
pub fn space() -> String {
    format!(
        "space: planners of all policies, models, drafters and both sources of prices, and damaged \
         plans of every refusal, small ones, in both modes of prices; widths that settle; one with 256 workers, one with 4,096 \
         seconds and one with 1,000,000 steps in a second; seed {SEED}"
    )
}

pub fn recorded() -> Vec<PlannerCase> {
    let dice = &mut Dice::new(SEED);
    let mut cases = Vec::new();
    for turn in 0..8 {
        for policy in POLICIES {
            let scene = Scene::new(Shape::small(dice), policy, dice);
            cases.push(under(Script::new(), scene, dice.between(3, 8), dice));
        }
        cases.push(gating(4, dice));
        cases.push(bridging(4, dice));
        cases.push(switching(8, dice));
        if turn % 2 == 0 {
            cases.push(damages(Script::new(), Shape::small(dice), 8, dice));
            cases.push(settling(Script::new(), ways(dice), 2, dice));
        }
        cases.push(large(turn, dice));
    }
    cases.push(full_second(Script::new(), 1_000_000, dice));
    cases.push(asking(Script::new(), ways(dice), 8, dice));
    cases.push(sharp());
    cases
}

/// Deep enough for a way of several walks.
fn ways(dice: &mut Dice) -> Shape {
    Shape {
        gamma: dice.between(3, 6) as u32,
        most: 1,
        is_full: false,
    }
}

/// One that is full, or one that goes through every damage.
fn large(turn: usize, dice: &mut Dice) -> PlannerCase {
    match turn {
        0..=3 => each_damage(true, POLICIES[turn], dice),
        4 | 5 => each_damage(false, POLICIES[turn - 3], dice),
        6 => full_workers(Script::new(), 256, true, dice),
        _ => full_seconds(Script::new(), 4_096, dice),
    }
}

#[cfg(test)]
mod tests {
    use super::*;
    use crate::met::Met;
    use numbers::sampling::assert_steady;

    #[test]
    fn the_sample_is_the_same_each_time_and_of_the_size_wanted() {
        assert_steady(recorded, 70..=80, 450_000);
    }

    #[test]
    fn every_refusal_policy_model_drafter_and_way_is_met() {
        let mut met = Met::default();
        for case in recorded() {
            met.add(&case.met);
        }
        let refused: Vec<usize> = (0..22).filter(|&n| met.refused[n] > 0).collect();
        assert_eq!(refused, [11, 12, 13, 14, 15, 16, 17, 18, 19]);
        let refused: Vec<usize> = (0..22).filter(|&n| met.not_settling[n] > 0).collect();
        assert_eq!(refused, [11, 12, 15, 16]);
        let counts = [
            &met.policies[..],
            &met.models,
            &met.drafters,
            &met.prices,
            &met.switching,
            &met.modes,
            &met.settling,
            &[met.empty, met.weighed, met.gone],
        ];
        assert!(counts.concat().iter().all(|&count| count > 0), "{met}");
    }
}
