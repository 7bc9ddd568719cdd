//! The ledger as the rules have it: the list of the changes that stand, and how many of them can be
//! withdrawn. Everything else is recounted from that list.
use crate::afresh::Afresh;
use crate::call::{Call, Outcome, Step};
use crate::worker::Worker;
use numbers::second::second;
use oracle::clock::end_in;
use oracle::simulation::spec::probe::Record;
use std::collections::BTreeMap;

const MOST_SECONDS: usize = 4096;
const MOST_WORKERS: usize = 256;
pub const MOST_STEPS: u64 = 1_000_000;
const MOST_WITHDRAWALS: u64 = 64;

/// A change as it was asked for.
#[derive(Clone, Copy, Debug)]
pub enum Change {
    Plan {
        step: Step,
        /// The worker's place and the target, where the plan decides a width.
        decision: Option<(u32, u32)>,
    },
    Collection {
        worker: u32,
    },
}

pub struct Ledger<'a> {
    workers: &'a [Worker],
    standing: Vec<Change>,
    pub available: u64,
    /// The standing plans of each second, and the standing decisions of each worker: counts of the
    /// list, kept because many calls in one ask for them each time. `Afresh` counts both anew.
    plans: BTreeMap<u64, u64>,
    decisions: BTreeMap<u32, u64>,
}

impl<'a> Ledger<'a> {
    pub fn new(workers: &'a [Worker]) -> Ledger<'a> {
        Ledger {
            workers,
            standing: Vec::new(),
            available: 0,
            plans: BTreeMap::new(),
            decisions: BTreeMap::new(),
        }
    }

    /// What is held, worked out from the standing changes.
    pub fn afresh(&self) -> Afresh {
        let afresh = Afresh::of(&self.standing, self.workers);
        let steps: Vec<(u64, u64)> = afresh.sums.iter().map(|sums| (sums.0, sums.3)).collect();
        assert!(self.plans.iter().map(|(&at, &n)| (at, n)).eq(steps));
        assert_eq!(self.decisions.len(), afresh.workers_held);
        afresh
    }

    /// 18, 19 or 0.
    pub fn step_refusal(&self, end: u64) -> u64 {
        match self.plans.get(&second(end)) {
            Some(&steps) if steps >= MOST_STEPS => 19,
            None if self.plans.len() >= MOST_SECONDS => 18,
            _ => 0,
        }
    }

    /// 17 or 0.
    pub fn worker_refusal(&self, worker: usize) -> u64 {
        let is_held = self.decisions.contains_key(&(worker as u32));
        if !is_held && self.decisions.len() >= MOST_WORKERS {
            17
        } else {
            0
        }
    }

    /// Makes a call; `held` is what is held before it.
    pub fn obey(&mut self, call: &Call, held: &Afresh) -> Outcome {
        match *call {
            Call::Fresh => {
                *self = Ledger::new(self.workers);
                Outcome::done()
            }
            Call::Plan(step) => Outcome::refused(self.plan(step, None)),
            Call::Decide {
                end,
                sequences,
                share,
                worker,
                target,
            } => {
                let width = self.decided(held, worker, target).0;
                let step = Step::of_width(width, end, sequences, share);
                Outcome::refused(self.plan(step, Some((worker as u32, target))))
            }
            Call::Collect { worker } => self.collect(held, worker),
            Call::Withdraw => Outcome::refused(self.withdraw()),
            Call::JudgeStep { end } => Outcome::refused(self.step_refusal(end)),
            Call::JudgeWorker { worker } => Outcome::refused(self.worker_refusal(worker)),
            _ => self.obey_many(call),
        }
    }

    fn obey_many(&mut self, call: &Call) -> Outcome {
        let mut outcome = Outcome::done();
        match *call {
            Call::ManyPlans {
                count,
                apart,
                first,
            } => {
                for turn in 0..count {
                    let end = end_in(second(first.end) + turn * apart);
                    outcome = outcome.and(self.plan(Step { end, ..first }, None));
                }
            }
            Call::ManyWorkers {
                count,
                from,
                end,
                sequences,
                share,
                target,
            } => {
                let step = Step::of_width(target, end, sequences, share);
                for worker in from..from + count {
                    assert!(!self.decisions.contains_key(&(worker as u32)));
                    outcome = outcome.and(self.plan(step, Some((worker as u32, target))));
                }
            }
            Call::ManyWithdrawals { count } => {
                for _ in 0..count {
                    outcome = outcome.and(self.withdraw());
                }
            }
            _ => panic!("one call: {call:?}"),
        }
        outcome
    }

    /// The record that a plan would leave its worker with.
    pub fn decided(&self, held: &Afresh, worker: usize, target: u32) -> Record {
        self.workers[worker].decided(held.records[worker], target)
    }

    /// Refused with the first of 17, 18 and 19; else the plan stands.
    fn plan(&mut self, step: Step, decision: Option<(u32, u32)>) -> u64 {
        let of_worker = decision.map_or(0, |(worker, _)| self.worker_refusal(worker as usize));
        let refusal = match of_worker {
            0 => self.step_refusal(step.end),
            number => number,
        };
        if refusal == 0 {
            *self.plans.entry(second(step.end)).or_default() += 1;
            if let Some((worker, _)) = decision {
                *self.decisions.entry(worker).or_default() += 1;
            }
            self.stand(Change::Plan { step, decision });
        }
        refusal
    }

    /// The stall; a worker without a record has none, and that is no change.
    fn collect(&mut self, held: &Afresh, worker: usize) -> Outcome {
        let Some((_, _, stall)) = held.records[worker] else {
            return Outcome::of_value(0);
        };
        let worker = worker as u32;
        self.stand(Change::Collection { worker });
        Outcome::of_value(stall.to_bits())
    }

    fn stand(&mut self, change: Change) {
        self.standing.push(change);
        self.available = (self.available + 1).min(MOST_WITHDRAWALS);
    }

    /// 21 where none is available; else the newest standing change stands no longer.
    fn withdraw(&mut self) -> u64 {
        if self.available == 0 {
            return 21;
        }
        self.available -= 1;
        let newest = self.standing.pop().expect("an available withdrawal");
        if let Change::Plan { step, decision } = newest {
            take_one(&mut self.plans, second(step.end));
            if let Some((worker, _)) = decision {
                take_one(&mut self.decisions, worker);
            }
        }
        0
    }
}

/// One less of a count, which is gone with its last.
fn take_one<Key: Ord>(counts: &mut BTreeMap<Key, u64>, key: Key) {
    let count = counts.get_mut(&key).expect("a count of one or more");
    *count -= 1;
    if *count == 0 {
        counts.remove(&key);
    }
}

#[cfg(test)]
mod tests {
    use super::*;
    use oracle::config::SwitchConstraints;

    /// The rules' P12: cooldown 2, one step, over the candidates 0, 2, 4, 6.
    fn worker() -> Worker {
        let none = f64::INFINITY;
        Worker {
            first: 0,
            second: 0,
            curve: vec![1.0, none, 1.0, none, 1.0, none, 1.0],
            switch: SwitchConstraints {
                cooldown_rounds: 2,
                max_step: Some(1),
                cost_ms: 0.0,
            },
        }
    }

    fn obey(ledger: &mut Ledger, call: Call) -> Outcome {
        let held = ledger.afresh();
        ledger.obey(&call, &held)
    }

    #[test]
    fn p11_a_second_that_comes_back_is_one_second() {
        let mut ledger = Ledger::new(&[]);
        for end in [5.5f64, 6.0, 5.9] {
            let step = Step {
                end: end.to_bits(),
                drafts: 4,
                sequences: 2,
                committed: 3,
            };
            assert_eq!(obey(&mut ledger, Call::Plan(step)), Outcome::done());
        }
        assert_eq!(ledger.afresh().sums, [(5, 8, 4, 2), (6, 4, 2, 1)]);
        assert_eq!(ledger.afresh().committed, [6, 3]);
    }

    #[test]
    fn p12_a_withdrawal_gives_the_record_from_before() {
        let workers = [worker()];
        let mut ledger = Ledger::new(&workers);
        for (target, width) in [(6, 6), (0, 6), (0, 4)] {
            let call = Call::Decide {
                end: end_in(7),
                sequences: 1,
                share: 50,
                worker: 0,
                target,
            };
            assert_eq!(obey(&mut ledger, call), Outcome::done());
            assert_eq!(ledger.afresh().records[0].unwrap().0, width);
        }
        assert_eq!(obey(&mut ledger, Call::Withdraw), Outcome::done());
        assert_eq!(ledger.afresh().records, [Some((6, 1, 0.0))]);
        assert_eq!(ledger.afresh().committed, [6]);
    }

    #[test]
    fn the_oldest_of_65_changes_stays() {
        let mut ledger = Ledger::new(&[]);
        let plans = Call::ManyPlans {
            count: 65,
            apart: 1,
            first: Step {
                end: end_in(3),
                drafts: 4,
                sequences: 2,
                committed: 1,
            },
        };
        assert_eq!(obey(&mut ledger, plans), Outcome::of_value(65));
        let all = obey(&mut ledger, Call::ManyWithdrawals { count: 65 });
        assert_eq!((all.refusal, all.value), (21, 64));
        assert_eq!(ledger.afresh().sums, [(3, 4, 2, 1)]);
        assert_eq!(ledger.afresh().committed, [1]);
    }
}
