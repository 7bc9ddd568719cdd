//! A planner whose width takes every one of the rounds that are answered.
use crate::planner_case::PlannerCase;
use crate::script::Script;
use oracle::drafter::{Drafter, Rates};
use oracle::drafter_values::ONE;
use oracle::model::Kind;
use oracle::planners::plan::{Plan, ROOM};
use oracle::planners::settling::Question;
use oracle::planners::world::{Policy, World, ROOFLINE};
use oracle::plans::verify_price::Mode;
use std::rc::Rc;

/// Depths 0, 2, 4 and 6, a walk of one of them every second round: from 6 to 0 the width takes six rounds,
/// and after five it is not there.
pub fn sharp() -> PlannerCase {
    let worker = (0, 0);
    let [deep, flat] = [ONE, 0].map(|alpha| Rc::new(world(alpha)));
    let mut script = Script::new();
    script.plan(plan(&deep));
    let asked = Question {
        width: 6,
        target: 0,
        slots: 64,
    };
    script.settles(&flat, asked);
    for round in 1..=6 {
        script.plan(plan(&flat));
        script.record(worker);
        let (width, _, _) = script.held.record(0, 0).expect("a worker that is held");
        assert_eq!(width == 0, round == 6);
    }
    let stays = Question { width: 0, ..asked };
    script.settles(&flat, stays);
    script.case(b's')
}

/// Every draft is accepted, or none.
fn world(alpha: u64) -> World {
    let none = f64::INFINITY;
    let mut lists: [Vec<u64>; 9] = Default::default();
    let roofline = [1.0, none, 1.0, none, 1.0, none, 1.0];
    lists[ROOFLINE] = roofline.map(f64::to_bits).to_vec();
    World {
        drafter: Drafter::Fraction { frac: 0 },
        rates: Rates {
            peak: ONE,
            bw: ONE,
            kv_delta: 0,
        },
        gamma: 6,
        kind: Kind::Constant,
        alpha,
        policy: Policy::GatedAggregate,
        cooldown: 2,
        max_step: Some(1),
        cost_ms: 0,
        prices: Mode::Default,
        has_table: false,
        rows: 0,
        depth: 0,
        rounds: 0,
        lists,
    }
}

fn plan(world: &Rc<World>) -> Plan {
    Plan {
        world: Rc::clone(world),
        draws: vec![0; 6],
        indices: vec![],
        a: 0,
        b: 0,
        sequences: 1,
        end: ONE,
        storage: ROOM,
        drafts: 1,
        commits: 1,
    }
}
