//! The rules' examples that speak of whole planners, and the plan order.
use crate::held::Held;
use oracle::drafter::{Drafter, Rates};
use oracle::model::Kind;
use oracle::planners::plan::{Plan, Planned, ROOM};
use oracle::planners::world::*;
use oracle::plans::verify_price::{Mode, MODES};
use std::rc::Rc;

fn bits(values: &[f64]) -> Vec<u64> {
    values.iter().map(|value| value.to_bits()).collect()
}

/// Alpha a half, gamma 3, prices of 1.
fn world(policy: Policy) -> World {
    let mut lists: [Vec<u64>; 9] = Default::default();
    lists[ROOFLINE] = bits(&[1.0; 4]);
    World {
        drafter: Drafter::Fraction { frac: 0 },
        rates: Rates {
            peak: 1f64.to_bits(),
            bw: 1f64.to_bits(),
            kv_delta: 0,
        },
        gamma: 3,
        kind: Kind::Constant,
        alpha: 0.5f64.to_bits(),
        policy,
        cooldown: 0,
        max_step: None,
        cost_ms: 0,
        prices: Mode::Default,
        has_table: false,
        rows: 0,
        depth: 0,
        rounds: 0,
        lists,
    }
}

/// A plan of one sequence whose draws end at the second.
fn plan(world: World) -> Plan {
    Plan {
        world: Rc::new(world),
        draws: bits(&[0.25, 0.5]),
        indices: vec![],
        a: 0,
        b: 0,
        sequences: 1,
        end: 5.5f64.to_bits(),
        storage: ROOM,
        drafts: 1,
        commits: 1,
    }
}

/// A bank of one round of depth 2.
fn banked(policy: Policy) -> Plan {
    let mut world = world(policy);
    world.kind = Kind::Trace;
    world.depth = 2;
    world.rounds = 1;
    world.lists[COMMITS] = vec![9];
    world.lists[SIGNALS] = bits(&[0.5, 0.5]);
    world.lists[CURVE] = bits(&[0.0, 1.0, 2.0]);
    Plan {
        indices: vec![0],
        ..plan(world)
    }
}

fn under(plan: &Plan, change: impl Fn(&mut World)) -> Plan {
    let mut world = (*plan.world).clone();
    change(&mut world);
    Plan {
        world: Rc::new(world),
        ..plan.clone()
    }
}

fn refusal(plan: &Plan) -> Option<u64> {
    match Held::new().plan(&Rc::new(plan.clone())) {
        Planned::Refused(number) => Some(number),
        Planned::Plan { .. } => None,
        Planned::Empty => Some(0),
    }
}

#[test]
fn run_draws_end_at_one_that_is_not_below_alpha() {
    let planned = Held::new().plan(&Rc::new(plan(world(Policy::Fixed))));
    let wanted = Planned::Plan {
        used: 2,
        weighed: 0,
        drafts: vec![3],
        commits: vec![1],
    };
    assert_eq!(planned, wanted);
}

#[test]
fn run_256_workers_pass_and_a_257th_is_refused() {
    let mut world = world(Policy::GatedAggregate);
    world.cooldown = 2;
    let plan = plan(world);
    let mut held = Held::new();
    for b in 0..257 {
        let asked = Rc::new(Plan { b, ..plan.clone() });
        let is_refused = held.plan(&asked) == Planned::Refused(17);
        assert_eq!(is_refused, b == 256);
    }
    assert_eq!(held.withdraw(), 0);
    let asked = Rc::new(Plan { b: 256, ..plan });
    assert_ne!(held.plan(&asked), Planned::Refused(17));
}

#[test]
fn p11_seconds_are_added_up_when_the_clock_goes_back() {
    let mut fixed = world(Policy::Fixed);
    fixed.gamma = 2;
    let mut held = Held::new();
    for end in [5.5, 6.0, 5.9] {
        held.plan(&Rc::new(Plan {
            sequences: 2,
            drafts: 2,
            commits: 2,
            draws: bits(&[0.5, 0.5]),
            end: f64::to_bits(end),
            ..plan(fixed.clone())
        }));
    }
    let means = |at: usize| {
        let sample = held.series()[at];
        (sample.second, sample.mean_draft, sample.mean_decode_batch)
    };
    assert_eq!((means(0), means(1)), ((5, 2.0, 2.0), (6, 2.0, 2.0)));
    assert_eq!(held.counts(), [2, 0, 3]);
}

/// A width of 6 first, then two decisions toward 0: every second one walks a step.
#[test]
fn p12_a_withdrawal_gives_the_record_back() {
    let mut world = world(Policy::GatedAggregate);
    world.gamma = 6;
    world.alpha = 1f64.to_bits();
    world.cooldown = 2;
    world.max_step = Some(1);
    let none = f64::INFINITY;
    world.lists[ROOFLINE] = bits(&[1.0, none, 1.0, none, 1.0, none, 1.0]);
    let draws = bits(&[0.0; 6]);
    let deep = Plan {
        draws,
        ..plan(world)
    };
    let flat = under(&deep, |world| world.alpha = 0);
    let mut held = Held::new();
    for asked in [&deep, &flat, &flat] {
        held.plan(&Rc::new(asked.clone()));
    }
    assert_eq!(held.record(0, 0), Some((4, 0, 0.0)));
    assert_eq!(held.withdraw(), 0);
    assert_eq!(held.record(0, 0), Some((6, 1, 0.0)));
}

#[test]
fn the_first_refusal_in_the_order_is_given() {
    let set = |plan: &Plan| under(plan, |world| world.alpha = 2f64.to_bits());
    let sound = plan(world(Policy::GoodputBudget));
    assert_eq!(refusal(&sound), None);
    let empty = Plan {
        sequences: 0,
        storage: 0,
        ..sound.clone()
    };
    assert_eq!(
        (refusal(&set(&empty)), refusal(&empty)),
        (Some(12), Some(0))
    );
    let large = under(&sound, |world| world.gamma = 65);
    let short = Plan {
        storage: ROOM - 1,
        ..large.clone()
    };
    assert_eq!((refusal(&short), refusal(&large)), (Some(11), Some(11)));
    let no_draws = Plan {
        draws: vec![],
        ..sound.clone()
    };
    let wrong = under(&no_draws, |world| world.rates.peak = 0);
    let short = Plan {
        commits: 0,
        ..wrong.clone()
    };
    let numbers = [&short, &wrong, &no_draws].map(refusal);
    assert_eq!(numbers, [Some(16), Some(15), Some(13)]);
    let minus_zero = Plan {
        draws: bits(&[-0.0]),
        ..sound
    };
    assert_eq!(refusal(&minus_zero), Some(14));
}

#[test]
fn only_what_is_used_is_looked_at() {
    let without =
        |plan: &Plan, list: usize| refusal(&under(plan, |world| world.lists[list].clear()));
    let with_nan = |plan: &Plan, list: usize| {
        refusal(&under(plan, |world| {
            world.lists[list][0] = f64::NAN.to_bits()
        }))
    };
    let [fixed, mean, gated] =
        [Policy::Fixed, Policy::GoodputBudget, Policy::GatedBudget].map(banked);
    let lists = [ROOFLINE, COMMITS, SIGNALS, CURVE];
    let missing = |plan: &Plan| lists.map(|list| without(plan, list));
    assert_eq!(missing(&fixed), [None, Some(16), None, None]);
    assert_eq!(missing(&mean), [Some(16), Some(16), None, Some(16)]);
    assert_eq!(missing(&gated), [Some(16), Some(16), Some(16), None]);
    let wrong = |plan: &Plan| [ROOFLINE, SIGNALS, CURVE].map(|list| with_nan(plan, list));
    assert_eq!(wrong(&fixed), [None, None, None]);
    assert_eq!(wrong(&mean), [Some(15), None, Some(15)]);
    assert_eq!(wrong(&gated), [Some(15), Some(15), None]);
}

#[test]
fn the_signals_follow_the_draws() {
    let gated = under(&banked(Policy::GatedBudget), |world| {
        world.lists[SIGNALS][1] = f64::INFINITY.to_bits();
    });
    let past = Plan {
        indices: vec![1],
        ..gated.clone()
    };
    let absent = Plan {
        indices: vec![],
        ..gated.clone()
    };
    assert_eq!(
        [&gated, &past, &absent].map(refusal),
        [Some(15), Some(14), Some(13)]
    );
    let shallow = under(&gated, |world| world.gamma = 1);
    assert_eq!(refusal(&shallow), None);
}

#[test]
fn a_collection_is_a_change_where_the_worker_is_known() {
    let mut world = world(Policy::GatedAggregate);
    world.cooldown = 2;
    let mut held = Held::new();
    assert_eq!((held.collect(0, 0), held.counts()), (0, [0, 0, 0]));
    held.plan(&Rc::new(plan(world)));
    assert_eq!((held.collect(0, 0), held.counts()), (0, [1, 1, 2]));
    assert_eq!(
        [held.withdraw(), held.withdraw(), held.withdraw()],
        [0, 0, 21]
    );
    assert_eq!(held.counts(), [0, 0, 0]);
}

/// Gamma 4, the depths 0 and 4 measured, one round that survives by 1, 1/2, 1/4, 1/8.
fn holed(prices: Mode, policy: Policy) -> Plan {
    let none = f64::INFINITY;
    under(&banked(policy), |world| {
        world.prices = prices;
        world.gamma = 4;
        world.depth = 4;
        world.lists[ROOFLINE] = bits(&[1.0, none, none, none, 2.0]);
        world.lists[SIGNALS] = bits(&[1.0, 0.5, 0.5, 0.5]);
        world.lists[CURVE] = bits(&[0.0, 1.0, 1.5, 1.75, 1.875]);
    })
}

fn drafted(planned: Planned) -> (Vec<u32>, u64) {
    match planned {
        Planned::Plan {
            drafts, weighed, ..
        } => (drafts, weighed),
        planned => panic!("{planned:?}"),
    }
}

#[test]
fn a_hole_is_crossed_in_the_bridged_mode_and_the_series_counts_what_is_drafted() {
    let block = |plan: &Plan| {
        under(plan, |world| {
            world.drafter = Drafter::BlockParallel {
                params: 0,
                block: 4,
            }
        })
    };
    let [by_default, bridged] = MODES.map(|mode| holed(mode, Policy::GatedBudget));
    let mut held = Held::new();
    let mut plan = |plan: &Plan| drafted(held.plan(&Rc::new(plan.clone())));
    assert_eq!(plan(&by_default), (vec![4], 1));
    assert_eq!(plan(&bridged), (vec![2], 3));
    assert_eq!(plan(&block(&by_default)), (vec![0], 1));
    assert_eq!(plan(&block(&bridged)), (vec![2], 3));
    let mean = |held: &Held| held.series()[0].mean_draft;
    assert_eq!(mean(&held), 2.0);
    assert_eq!((held.withdraw(), mean(&held)), (0, 2.0));
    assert_eq!((held.withdraw(), mean(&held)), (0, 3.0));
    assert_eq!((held.withdraw(), mean(&held)), (0, 4.0));
}

#[test]
fn the_mode_is_of_use_to_the_gated_budget_alone() {
    for policy in [Policy::Fixed, Policy::GoodputBudget, Policy::GatedAggregate] {
        let both = MODES.map(|mode| Held::new().plan(&Rc::new(holed(mode, policy))));
        assert_eq!(both[0], both[1]);
    }
}
