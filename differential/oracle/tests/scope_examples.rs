//! The worked examples of docs/RULES.md, on the unchanged Rust.
use oracle::compute::measured;
use oracle::config::*;
use oracle::request::Request;
use oracle::simulation::spec::probe::*;
use oracle::simulation::spec::*;

const NONE: f64 = f64::INFINITY;

fn config(drafter: Option<DrafterCost>) -> SpeculativeConfig {
    SpeculativeConfig {
        gamma: 64,
        acceptance: AcceptanceModel::Constant { alpha: 0.5 },
        policy: GammaPolicy::Fixed,
        measured_cost: None,
        switch: SwitchConstraints::default(),
        drafter,
    }
}

/// The best depth for expected values 0, 2, 3 of two sequences, over a cost curve.
fn best_depth(curve: [f64; 3]) -> u32 {
    let gate = Gate {
        curve: &curve,
        gamma: 2,
        cfg: &config(None),
        peak: 1.0,
        bw: 1.0,
        n: 2,
    };
    gate.best_depth(&[0.0, 2.0, 3.0])
}

#[test]
fn p1_depth_0_where_nothing_exceeds_it() {
    assert_eq!(best_depth([1.0, 2.0, 2.5]), 0);
}

#[test]
fn p2_depth_2_where_it_exceeds_the_rest() {
    assert_eq!(best_depth([1.0, 2.0, 2.0]), 2);
}

#[test]
fn p3_depth_0_where_all_costs_are_infinite() {
    assert_eq!(best_depth([NONE; 3]), 0);
}

/// Runs over curve 1, 1.25 and two chains of one slot.
fn gate(drafter: DrafterCost, run: impl Fn(&Gate) -> (Vec<u32>, u64)) -> (Vec<u32>, u64) {
    run(&Gate {
        curve: &[1.0, 1.25],
        gamma: 1,
        cfg: &config(Some(drafter)),
        peak: 1.0,
        bw: 1.0,
        n: 2,
    })
}

const FREE_FRACTION: DrafterCost = DrafterCost::Fraction { frac: 0.0 };

const FREE_BLOCK: DrafterCost = DrafterCost::BlockParallel {
    params: 0.0,
    block: 1,
};

fn chains(first: f64, second: f64) -> [Vec<f64>; 2] {
    [vec![first], vec![second]]
}

#[test]
fn p4_ragged_gate_removes_the_unlikely_slot() {
    let ragged = gate(FREE_FRACTION, |gate| gate.ragged(&chains(0.875, 0.125)));
    assert_eq!(ragged, (vec![1, 0], 2));
}

#[test]
fn p5_block_gate_takes_the_likely_slot() {
    let block = gate(FREE_BLOCK, |gate| gate.block(&chains(0.875, 0.125)));
    assert_eq!(block, (vec![1, 0], 2));
}

#[test]
fn p6_minus_zero_has_the_largest_bits_and_stops_the_block_gate() {
    let block = gate(FREE_BLOCK, |gate| gate.block(&chains(-0.0, 0.875)));
    assert_eq!(block, (vec![0, 0], 1));
}

#[test]
fn p7_zero_does_not_stop_it() {
    let block = gate(FREE_BLOCK, |gate| gate.block(&chains(0.0, 0.875)));
    assert_eq!(block, (vec![0, 1], 2));
}

const CANDIDATES: [u32; 4] = [0, 2, 4, 6];

#[test]
fn p8_width_3_snaps_to_the_next_larger_candidate() {
    assert_eq!(walk(&CANDIDATES, 3, 5, None), 4);
}

#[test]
fn p9_width_9_snaps_to_the_last_candidate() {
    assert_eq!(walk(&CANDIDATES, 9, 9, None), 6);
}

#[test]
fn p10_a_row_above_1_3_times_the_next_is_dropped() {
    let text = "batch_size,num_draft_tokens,step_seconds\n1,1,1.9\n2,1,1.5\n4,1,1.0\n";
    let table = measured::probe::parse(text).unwrap();
    assert_eq!(measured::probe::rows(&table), [(0, 1, 1.9), (0, 4, 1.0)]);
}

#[test]
fn p11_a_second_met_again_is_the_same_second() {
    let mut planner = SpecPlanner::over(config(None), None, None);
    for end in [5.5, 6.0, 5.9] {
        planner.count_step(end, 4, 2);
    }
    assert_eq!(planner.sums(), [(5, 8, 4, 2), (6, 4, 2, 1)]);
}

/// What the Rust can do of P12: the first width is free, the second decision only counts, the third
/// walks one step. Withdrawing, which gives 6 with counter 1 and stall 0 again, is not in the Rust.
#[test]
fn p12_one_step_at_every_second_decision() {
    let switch = SwitchConstraints {
        cooldown_rounds: 2,
        max_step: Some(1),
        cost_ms: 0.0,
    };
    let curve = [1.0, NONE, 1.0, NONE, 1.0, NONE, 1.0];
    let (width, first) = choose(None, 6, &curve, &switch);
    assert_eq!((width, first), (6, (6, 0, 0.0)));
    let (width, second) = choose(Some(first), 0, &curve, &switch);
    assert_eq!((width, second), (6, (6, 1, 0.0)));
    let (width, third) = choose(Some(second), 0, &curve, &switch);
    assert_eq!((width, third), (4, (4, 0, 0.0)));
}

const COSTS: PlanCosts<'static> = PlanCosts {
    roofline: &|_| 1.0,
    kv_delta: 0.0,
    peak: 1.0,
    bw: 1.0,
};

#[test]
fn run_draws_end_at_one_that_is_not_below_alpha() {
    rand::lend(&[0.25, 0.5, 0.125], &[]);
    let mut cfg = config(None);
    cfg.gamma = 3;
    let plans = SpecPlanner::over(cfg, None, None).plan((0, 0), &[&Request], &COSTS, 0.0);
    let wanted = DraftPlan {
        draft_len: 3,
        commits: 1,
    };
    assert_eq!(plans, [wanted]);
    let used = rand::used();
    assert_eq!((used.floats, used.absent), (2, 0));
}

#[test]
fn run_the_signal_is_the_last_columns_whatever_their_names() {
    std_lent::fs::lend_text("lent:bank", "commits,a0,len\n1,0.5,7\n");
    let bank = TraceBank::load("lent:bank").unwrap();
    assert_eq!((bank.max_depth, &bank.rounds[0].a_hat[..]), (1, &[7.0][..]));
}

/// A listed difference: the rules read 15 digits and refuse 16 with 7; the Rust takes both.
#[test]
fn run_the_rust_takes_15_digits_and_16_too() {
    for (digits, value) in [
        ("1.23456789012345", 1.23456789012345),
        ("1.234567890123456", 1.234567890123456),
    ] {
        std_lent::fs::lend_text("lent:bank", &format!("commits,a0\n1,{digits}\n"));
        let bank = TraceBank::load("lent:bank").unwrap();
        assert_eq!(bank.rounds[0].a_hat, [value]);
        let text = format!("batch_size,num_draft_tokens,step_seconds\n1,1,{digits}\n");
        let table = measured::probe::parse(&text).unwrap();
        assert_eq!(measured::probe::rows(&table), [(0, 1, value)]);
    }
}

/// A listed difference: the rules hold 256 workers and refuse a 257th with 17; the Rust has no
/// limit.
#[test]
fn run_the_rust_takes_256_workers_and_a_257th_too() {
    rand::lend(&[0.25; 257], &[]);
    let mut cfg = config(None);
    cfg.gamma = 1;
    cfg.policy = GammaPolicy::GatedAggregate;
    cfg.switch.cooldown_rounds = 2;
    let mut planner = SpecPlanner::over(cfg, None, None);
    for worker in 0..257 {
        let plans = planner.plan((0, worker), &[&Request], &COSTS, 0.0);
        assert_eq!((plans.len(), planner.workers_held()), (1, worker + 1));
    }
    assert_eq!(rand::used().absent, 0);
}
