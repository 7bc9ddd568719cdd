//! The second that the Rust counts a step in, for end times of any bit pattern.
use numbers::dice::Dice;
use numbers::second::second;
use numbers::{end_times, sample};
use oracle::config::*;
use oracle::simulation::spec::SpecPlanner;

fn planner() -> SpecPlanner {
    let cfg = SpeculativeConfig {
        gamma: 0,
        acceptance: AcceptanceModel::Constant { alpha: 0.5 },
        policy: GammaPolicy::Fixed,
        measured_cost: None,
        switch: SwitchConstraints::default(),
        drafter: None,
    };
    SpecPlanner::over(cfg, None, None)
}

/// One step alone: the Rust puts it into `end.max(0.0) as u64`, which is also what the rules say,
/// worked out from the bits.
fn check(end: u64) {
    let mut planner = planner();
    planner.count_step(f64::from_bits(end), 3, 2);
    let cast = f64::from_bits(end).max(0.0) as u64;
    assert_eq!(planner.sums(), [(cast, 3, 2, 1)], "end {end:016x}");
    assert_eq!(second(end), cast, "end {end:016x}");
}

/// NaNs of both signs, infinities, both zeros, subnormals, and every power of two from 2^-1 to 2^65
/// with its neighbours: 2^53, 2^63 and 2^64 among them.
#[test]
fn special_end_times() {
    end_times::specials().into_iter().for_each(check);
    end_times::powers_of_two().into_iter().for_each(check);
    end_times::whole_numbers().into_iter().for_each(check);
}

#[test]
fn random_end_times() {
    let dice = &mut Dice::new(11);
    (0..5000).for_each(|_| check(dice.bits()));
    (0..5000).for_each(|_| check(end_times::random(dice)));
}

#[test]
fn recorded_end_times() {
    let ends = sample::recorded().into_iter().filter_map(|case| case.end());
    ends.for_each(check);
}
