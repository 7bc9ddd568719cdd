//! What the unchanged Rust answers of drafters and of switching.
use crate::drafters::{Asked, Question};
use numbers::word_case::bits_of;
use oracle::config::SwitchConstraints;
use oracle::costs::switching::{Record, Switch};
use oracle::drafter::Drafter;
use oracle::lent_model::loaded_reads;
use oracle::simulation::spec::probe;
use oracle::simulation::spec::SpecPlanner;
use oracle::unchanged::{self, any_config, cost_of};

pub fn is_block(drafter: Drafter) -> bool {
    cost_of(drafter).is_block()
}

/// The bits of the seconds that are asked for. What is read of the loaded experts is lent.
pub fn cost(question: &Question) -> u64 {
    let drafter = cost_of(question.drafter);
    let [peak, bw, verify_c] =
        [question.rates.peak, question.rates.bw, question.verify_c].map(f64::from_bits);
    unchanged::lend_loaded(question.drafter, &question.loaded);
    let seconds = match &question.asked {
        Asked::Seconds { gamma, batch } => drafter.seconds(*gamma, *batch, peak, bw, verify_c),
        Asked::PassSeconds { batch } => drafter.pass_seconds(*batch, peak, bw),
        Asked::RaggedSeconds { widths } => drafter.ragged_seconds(widths, peak, bw, verify_c),
        _ => panic!("a question without a cost: {question:x?}"),
    };
    assert_eq!(
        loaded_reads().1,
        0,
        "past the loaded experts: {question:x?}"
    );
    bits_of(seconds)
}

fn constraints(switch: Switch) -> SwitchConstraints {
    SwitchConstraints {
        cooldown_rounds: switch.cooldown_rounds,
        max_step: switch.max_step,
        cost_ms: f64::from_bits(switch.cost_ms),
    }
}

pub fn is_unconstrained(switch: Switch) -> bool {
    constraints(switch).is_unconstrained()
}

pub fn walked(candidates: &[u32], width: u32, target: u32, max_step: Option<u32>) -> u32 {
    probe::walk(candidates, width, target, max_step)
}

fn held(record: Record) -> probe::Record {
    (record.width, record.rounds, f64::from_bits(record.stall))
}

fn record_of((width, rounds, stall): probe::Record) -> Record {
    Record {
        width,
        rounds,
        stall: bits_of(stall),
    }
}

/// The record behind a decision; the width that is decided is the record's.
pub fn decided(record: Record, curve: &[u64], target: u32, switch: Switch) -> Record {
    decide(Some(held(record)), curve, target, &constraints(switch))
}

/// The record behind a first decision.
pub fn first(target: u32) -> Record {
    decide(None, &[], target, &SwitchConstraints::default())
}

fn decide(
    before: Option<probe::Record>,
    curve: &[u64],
    target: u32,
    switch: &SwitchConstraints,
) -> Record {
    let curve = unchanged::floats(curve);
    let (width, after) = probe::choose(before, target, &curve, switch);
    assert_eq!(width, after.0, "the width is not the record's");
    record_of(after)
}

/// The bits of the stall that is collected, and the record behind it.
pub fn collected(record: Record) -> (u64, Record) {
    let worker = (0, 0);
    let mut planner = SpecPlanner::over(any_config(), None, None);
    planner.set_record(worker, held(record));
    let stall = planner.take_pending_switch_cost(worker);
    let after = planner.record_of(worker).expect("the worker is known");
    (bits_of(stall), record_of(after))
}
