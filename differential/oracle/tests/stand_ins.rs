//! The stand-ins: what is lent is what the Rust gets, and what it uses is counted.
use oracle::config::*;
use oracle::lent_model::{lend_loaded, loaded_reads};
use oracle::request::Request;
use oracle::simulation::spec::probe::*;
use oracle::simulation::spec::*;
use std::sync::Arc;

#[test]
fn a_lent_text_reads_as_a_file_of_it() {
    let text = "commits,category,a0,a1\n1,x,0.5,0.25\n4,y,1,-0\n";
    let path = std::env::temp_dir().join(format!("bank-{}.csv", std::process::id()));
    std::fs::write(&path, text).unwrap();
    let from_file = TraceBank::load(path.to_str().unwrap());
    std::fs::remove_file(&path).unwrap();
    std_lent::fs::lend_text("lent:bank", text);
    let from_lent = TraceBank::load("lent:bank");
    assert_eq!(
        format!("{:?}", from_file.unwrap()),
        format!("{:?}", from_lent.unwrap())
    );
}

fn autoregressive(experts_per_tok: u32) -> DrafterCost {
    DrafterCost::Autoregressive {
        dense_params: 0.0,
        expert_params: 1.0,
        num_experts: 8,
        experts_per_tok,
        shared_experts: 0,
    }
}

/// With bandwidth 2 a pass takes as many seconds as experts are loaded, or what its work takes.
#[test]
fn loaded_experts_are_read_at_the_batch() {
    let list: Vec<f64> = (0..=1024).map(|batch| f64::from(batch) / 7.0).collect();
    for k in [1, 2, 3, 7, 8, 999_983, 1_000_000] {
        lend_loaded(k, &list);
        for batch in 1..=1024u32 {
            let work = 2.0 * f64::from(k) * f64::from(batch) / 1e18;
            let seconds = autoregressive(k).pass_seconds(batch, 1e18, 2.0);
            assert_eq!(seconds, list[batch as usize].max(work));
        }
        assert_eq!(loaded_reads(), (1024, 0));
        autoregressive(k).pass_seconds(1025, 1e18, 2.0);
        assert_eq!(loaded_reads(), (1025, 1));
    }
}

fn planner_over_two_rounds() -> SpecPlanner {
    let round = |commits| TraceRound {
        a_hat: vec![0.5],
        commits,
    };
    let bank = TraceBank {
        rounds: vec![round(3), round(9)],
        e_curve: vec![0.0, 1.0],
        max_depth: 1,
    };
    let cfg = SpeculativeConfig {
        gamma: 1,
        acceptance: AcceptanceModel::TraceRounds {
            path: String::new(),
        },
        policy: GammaPolicy::Fixed,
        measured_cost: None,
        switch: SwitchConstraints::default(),
        drafter: None,
    };
    SpecPlanner::over(cfg, Some(Arc::new(bank)), None)
}

#[test]
fn indices_are_replayed_and_those_absent_or_out_of_range_are_counted() {
    let costs = PlanCosts {
        roofline: &|_| 1.0,
        kv_delta: 0.0,
        peak: 1.0,
        bw: 1.0,
    };
    rand::lend(&[], &[1, 0, 2]);
    let plans = planner_over_two_rounds().plan((0, 0), &[&Request; 4], &costs, 0.0);
    let commits: Vec<u32> = plans.iter().map(|plan| plan.commits).collect();
    assert_eq!(commits, [9, 3, 3, 3]);
    let used = rand::used();
    assert_eq!((used.indices, used.out_of_range, used.absent), (3, 1, 1));
}

/// "Easy to get wrong": at mean width gamma the price is not the curve's last entry.
#[test]
fn the_probe_reaches_the_verify_price() {
    let curve = [1.0, 0.1];
    let price = price_between(&curve, 1, 1, 2.0);
    assert_eq!(price, curve[0] + 1.0 * (curve[1] - curve[0]));
    assert_ne!(price, curve[1]);
}
