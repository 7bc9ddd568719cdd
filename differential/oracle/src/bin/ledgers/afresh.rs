//! What is held, worked out from the standing changes alone: by the Rust's own planner, built anew,
//! and a second time by plain sums and by each worker's own changes. The two have to agree.
use crate::ledger::Change;
use crate::worker::Worker;
use numbers::second::second;
use oracle::simulation::spec::probe::Record;
use oracle::simulation::spec::{DepthSample, SpecPlanner};
use oracle::unchanged::any_config;
use std::collections::BTreeMap;

/// A second with its drafts, sequences and steps.
pub type Sums = (u64, u64, u64, u64);

pub struct Afresh {
    pub series: Vec<DepthSample>,
    pub sums: Vec<Sums>,
    /// The committed of each second, which the Rust does not count: plain sums alone.
    pub committed: Vec<u64>,
    /// The record of each of the sequence's workers.
    pub records: Vec<Option<Record>>,
    pub workers_held: usize,
}

impl Afresh {
    pub fn of(standing: &[Change], workers: &[Worker]) -> Afresh {
        let planner = planner(standing, workers);
        let records: Vec<Option<Record>> = workers
            .iter()
            .map(|worker| planner.record_of(worker.key()))
            .collect();
        assert_eq!(records, records_alone(standing, workers));
        let sums = planner.sums();
        assert_eq!(sums, added(standing));
        let workers_held = planner.workers_held();
        assert_eq!(workers_held, records.iter().flatten().count());
        Afresh {
            series: planner.depth_series(),
            sums,
            committed: committed(standing),
            records,
            workers_held,
        }
    }

    /// The bits of the mean committed of each second, by sequence.
    pub fn mean_committed(&self) -> Vec<u64> {
        let mean = |(&committed, &(_, _, sequences, _)): (&u64, &Sums)| {
            (committed as f64 / sequences.max(1) as f64).to_bits()
        };
        self.committed.iter().zip(&self.sums).map(mean).collect()
    }

    /// The bits of the day figure, which the Rust does not have.
    pub fn day_figure(&self) -> u64 {
        if self.series.is_empty() {
            return 0;
        }
        let means = self.series.iter().map(|sample| sample.mean_draft);
        let sum = means.fold(0.0, |sum, mean| sum + mean);
        (sum / self.series.len() as f64).to_bits()
    }
}

/// The Rust's planner after the standing changes, in their order.
fn planner(standing: &[Change], workers: &[Worker]) -> SpecPlanner {
    let mut planner = SpecPlanner::over(any_config(), None, None);
    for change in standing {
        match *change {
            Change::Plan { step, decision } => {
                let end = f64::from_bits(step.end);
                planner.count_step(end, step.drafts, step.sequences as usize);
                if let Some((worker, target)) = decision {
                    let worker = &workers[worker as usize];
                    planner.choose(worker.key(), target, &worker.curve, &worker.switch);
                }
            }
            Change::Collection { worker } => {
                planner.take_pending_switch_cost(workers[worker as usize].key());
            }
        }
    }
    planner
}

/// Each worker's record from its own changes alone.
fn records_alone(standing: &[Change], workers: &[Worker]) -> Vec<Option<Record>> {
    let mut records = vec![None; workers.len()];
    for change in standing {
        match *change {
            Change::Plan {
                decision: Some((worker, target)),
                ..
            } => {
                let worker = worker as usize;
                records[worker] = Some(workers[worker].decided(records[worker], target));
            }
            Change::Plan { decision: None, .. } => {}
            Change::Collection { worker } => {
                let record = records[worker as usize].as_mut();
                record.expect("a worker with a record").2 = 0.0;
            }
        }
    }
    records
}

/// The sums of the standing plans at each second, ascending.
fn added(standing: &[Change]) -> Vec<Sums> {
    let mut seconds: BTreeMap<u64, (u64, u64, u64)> = BTreeMap::new();
    for change in standing {
        if let Change::Plan { step, .. } = change {
            let sums = seconds.entry(second(step.end)).or_default();
            *sums = (sums.0 + step.drafts, sums.1 + step.sequences, sums.2 + 1);
        }
    }
    seconds
        .into_iter()
        .map(|(at, (drafts, sequences, steps))| (at, drafts, sequences, steps))
        .collect()
}

/// The committed of the standing plans at each second, ascending.
fn committed(standing: &[Change]) -> Vec<u64> {
    let mut seconds: BTreeMap<u64, u64> = BTreeMap::new();
    for change in standing {
        if let Change::Plan { step, .. } = change {
            *seconds.entry(second(step.end)).or_default() += step.committed;
        }
    }
    seconds.into_values().collect()
}
