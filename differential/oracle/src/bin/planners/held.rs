//! A planner as the rules have it: the unchanged Rust's, the changes that stand, and how many of them
//! can be withdrawn. A withdrawal builds the Rust's planner anew from those that are left.
use numbers::second::second;
use oracle::planners::judge::{judged, Judged};
use oracle::planners::plan::{Plan, Planned};
use oracle::planners::unchanged::{committed, Unchanged};
use oracle::simulation::spec::probe::Record;
use oracle::simulation::spec::DepthSample;
use std::collections::BTreeMap;
use std::rc::Rc;

const MOST_WITHDRAWALS: u64 = 64;

/// A change as it was asked for.
enum Change {
    Plan(Rc<Plan>),
    Collection { a: u64, b: u64 },
}

pub struct Held {
    unchanged: Unchanged,
    standing: Vec<Change>,
    available: u64,
    /// The committed of each second, recounted whenever the Rust makes a plan that stands.
    committed: BTreeMap<u64, u64>,
}

impl Held {
    pub fn new() -> Held {
        Held {
            unchanged: Unchanged::new(),
            standing: Vec::new(),
            available: 0,
            committed: BTreeMap::new(),
        }
    }

    pub fn plan(&mut self, plan: &Rc<Plan>) -> Planned {
        match judged(plan, &self.unchanged.planner) {
            Judged::Refused(number) => Planned::Refused(number),
            Judged::Empty => Planned::Empty,
            Judged::Accepted => {
                self.stand(Change::Plan(Rc::clone(plan)));
                self.make(plan)
            }
        }
    }

    /// Whether a plan would be refused.
    pub fn refuses(&self, plan: &Plan) -> bool {
        matches!(judged(plan, &self.unchanged.planner), Judged::Refused(_))
    }

    /// The bits of a worker's stall. An unknown worker's is 0.0, and is no change.
    pub fn collect(&mut self, a: u64, b: u64) -> u64 {
        let worker = (a as usize, b as usize);
        if self.record(a, b).is_some() {
            self.stand(Change::Collection { a, b });
        }
        let stall = self.unchanged.planner.take_pending_switch_cost(worker);
        stall.to_bits()
    }

    /// 21 where no withdrawal is available; else 0.
    pub fn withdraw(&mut self) -> u64 {
        if self.available == 0 {
            return 21;
        }
        self.available -= 1;
        self.standing.pop();
        self.make_anew();
        0
    }

    /// All that stands, from an empty planner on.
    fn make_anew(&mut self) {
        self.unchanged = Unchanged::new();
        self.committed.clear();
        let standing = std::mem::take(&mut self.standing);
        for change in &standing {
            match *change {
                Change::Plan(ref plan) => {
                    self.make(plan);
                }
                Change::Collection { a, b } => {
                    let worker = (a as usize, b as usize);
                    self.unchanged.planner.take_pending_switch_cost(worker);
                }
            }
        }
        self.standing = standing;
    }

    /// Makes a plan that is not refused, and counts what its rounds accept at its second.
    fn make(&mut self, plan: &Plan) -> Planned {
        let planned = self.unchanged.plan(plan);
        if let Planned::Plan {
            drafts, commits, ..
        } = &planned
        {
            let seconds = self.committed.entry(second(plan.end));
            *seconds.or_default() += committed(drafts, commits);
        }
        planned
    }

    fn stand(&mut self, change: Change) {
        self.standing.push(change);
        self.available = (self.available + 1).min(MOST_WITHDRAWALS);
    }

    pub fn series(&self) -> Vec<DepthSample> {
        self.unchanged.planner.depth_series()
    }

    /// The bits of the mean committed of each second, by sequence.
    pub fn mean_committed(&self) -> Vec<u64> {
        let sums = self.unchanged.planner.sums().into_iter();
        let mean = |(at, _, sequences, _): (u64, u64, u64, u64)| {
            (self.committed[&at] as f64 / sequences.max(1) as f64).to_bits()
        };
        sums.map(mean).collect()
    }

    pub fn record(&self, a: u64, b: u64) -> Option<Record> {
        self.unchanged.planner.record_of((a as usize, b as usize))
    }

    /// How many seconds and workers are held, and how many withdrawals are available.
    pub fn counts(&self) -> [u64; 3] {
        let planner = &self.unchanged.planner;
        let held = [planner.seconds_held(), planner.workers_held()];
        [held[0] as u64, held[1] as u64, self.available]
    }

    /// The bits of the day figure, which the Rust does not have.
    pub fn day_figure(&self) -> u64 {
        let series = self.series();
        if series.is_empty() {
            return 0;
        }
        let sum = series.iter().fold(0.0, |sum, at| sum + at.mean_draft);
        (sum / series.len() as f64).to_bits()
    }
}
