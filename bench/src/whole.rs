//! Whole plans against the Rust's `plan_into`: four policies, a constant and a trace, with and without a table of 4,096 rows.
use crate::days::{Day, Host, Kind, POLICIES};
use crate::plan::Plans;
use crate::report::{grouped, Report};
use crate::side::{by_side_ready, Times};
use crate::storage::{Series, Storage, SECONDS};
use oracle::simulation::spec::{DraftPlan, SpecPlanner};

const ROWS: u32 = 4_096;

/// The time for each plan of a day that starts with an empty planner, made outside the clock.
fn measured(name: &str, kind: &Kind) -> Times {
    let day = Day::new(kind);
    let n = kind.n;
    by_side_ready(
        name,
        kind.count,
        (
            || ours_empty(n),
            |(storage, plans): &mut (Storage, Plans)| day.ours(storage, plans),
        ),
        (
            || (day.planner(), Vec::with_capacity(n)),
            |(planner, plans): &mut (SpecPlanner, Vec<DraftPlan>)| day.rust(planner, plans),
        ),
    )
}

fn ours_empty(n: usize) -> (Storage, Plans) {
    let plans = Plans {
        drafts: vec![0; n],
        commits: vec![0; n],
    };
    (Storage::fresh(), plans)
}

/// The same, where the Rust's host adds up what the rounds accept, as our plan does. Behind a day the mean committed of every second is the same.
fn measured_counting(name: &str, kind: &Kind) -> Times {
    let day = Day::new(kind);
    let (mut storage, mut plans) = ours_empty(kind.n);
    let mut host = Host::of(&day);
    day.ours(&mut storage, &mut plans);
    day.rust_counting(&mut host);
    let mut series = Series::with_room(SECONDS);
    let seconds = series.read(&storage) as usize;
    assert_eq!(series.committed[..seconds], host.mean_committed(), "{name}");
    by_side_ready(
        name,
        kind.count,
        (
            || ours_empty(kind.n),
            |(storage, plans): &mut (Storage, Plans)| day.ours(storage, plans),
        ),
        (|| Host::of(&day), |host: &mut Host| day.rust_counting(host)),
    )
}

fn cell(report: &mut Report, kind: &Kind) {
    let model = if kind.trace { "trace" } else { "constant" };
    let prices = if kind.rows > 0 { "table" } else { "roofline" };
    let name = format!(
        "plans: {}, {model}, {} sequences of {}, {prices}",
        POLICIES[kind.policy].0,
        grouped(kind.n),
        kind.gamma
    );
    if report.wants(&name) {
        let times = measured(&name, kind);
        report.rust.row(&name, Some(1.0), times);
    }
}

/// What a plan of eight sequences costs by the rows of its table: all of them are judged at each plan.
fn grows(report: &mut Report) {
    let name = "plans: goodput_budget, constant, 8 sequences of 4, by the rows of the table";
    if !report.wants(name) {
        return;
    }
    for rows in [64, 512, ROWS] {
        let (n, gamma, count) = (8, 4, 400);
        let (policy, trace) = (1, false);
        let kind = Kind {
            policy,
            trace,
            rows,
            n,
            gamma,
            count,
        };
        report.rust.size(name, rows as usize, measured(name, &kind));
    }
}

/// The plan that does least beside it, for ever more sequences.
fn grows_counting(report: &mut Report) {
    let name =
        "plans: fixed, trace, roofline, both sides add up what is committed, by the sequences";
    if !report.wants(name) {
        return;
    }
    for n in [1, 16, 128, 1_024] {
        let kind = Kind {
            policy: 0,
            trace: true,
            rows: 0,
            n,
            gamma: 8,
            count: 4_096 / n.max(16),
        };
        report.rust.size(name, n, measured_counting(name, &kind));
    }
}

pub fn whole(report: &mut Report) {
    for (n, gamma, count) in [(8, 4, 400), (64, 8, 60), (1_024, 64, 3)] {
        for policy in 0..POLICIES.len() {
            for trace in [false, true] {
                for rows in [0, ROWS] {
                    cell(
                        report,
                        &Kind {
                            policy,
                            trace,
                            rows,
                            n,
                            gamma,
                            count,
                        },
                    );
                }
            }
        }
    }
    grows(report);
    grows_counting(report);
}
