//! A plan's bookkeeping and the series of 4,096 seconds, against the Rust's planner.
use crate::batches::{drafters, settings};
use crate::dice::Dice;
use crate::report::{grouped, Report};
use crate::side::{by_side, by_side_made, by_side_ready, Times};
use crate::storage::{Series, Storage, SECONDS};
use oracle::simulation::spec::SpecPlanner;
use std::cell::RefCell;

/// The first second that is held: some day.
const START: u64 = 1_000_000;
const HOUR: u64 = 3_600;

fn drafts_of(k: u64) -> (u64, u64) {
    (k % 257, 1 + k % 61)
}

fn planner() -> SpecPlanner {
    let [(_, _, drafter), ..] = drafters();
    SpecPlanner::over(settings(4, drafter), None, None)
}

/// Counts a plan for each of the seconds; answers how many were taken.
fn record_ours(storage: &mut Storage, seconds: &[u64]) -> u64 {
    let mut taken = 0;
    for (k, &second) in (0..).zip(seconds) {
        let (drafts, sequences) = drafts_of(k);
        taken += u64::from(storage.record(second, drafts, sequences) == 0);
    }
    taken
}

fn record_rust(planner: &mut SpecPlanner, seconds: &[u64]) -> u64 {
    for (k, &second) in (0..).zip(seconds) {
        let (drafts, sequences) = drafts_of(k);
        planner.count_step(second as f64, drafts, sequences as usize);
    }
    seconds.len() as u64
}

/// Every second, and every mean to the bit. All drafts are committed: that mean is the mean draft's.
fn assert_equal(storage: &Storage, planner: &SpecPlanner) {
    let mut ours = Series::with_room(SECONDS);
    let rust = planner.depth_series();
    assert_eq!(ours.read(storage), rust.len() as u64);
    for (k, sample) in rust.iter().enumerate() {
        assert_eq!(ours.seconds[k], sample.second);
        assert_eq!(ours.drafts[k].to_bits(), sample.mean_draft.to_bits());
        let batch = sample.mean_decode_batch.to_bits();
        assert_eq!(ours.batches[k].to_bits(), batch);
        assert_eq!(ours.committed[k].to_bits(), sample.mean_draft.to_bits());
    }
}

/// So many seconds from START on, a plan each.
fn held(seconds: usize) -> (Storage, SpecPlanner) {
    let (mut storage, mut planner) = (Storage::fresh(), planner());
    let all: Vec<u64> = (START..).take(seconds).collect();
    assert_eq!(record_ours(&mut storage, &all), seconds as u64);
    record_rust(&mut planner, &all);
    (storage, planner)
}

/// Plans of an empty planner that go on second by second, `each` of them a second, until 4,096 seconds are held.
fn ascending(report: &mut Report, each: usize, goal: Option<f64>) {
    let name = format!(
        "ledger: a plan counted, {each} a second, the seconds ascending up to {}",
        grouped(SECONDS)
    );
    if !report.wants(&name) {
        return;
    }
    let seconds: Vec<u64> = (0..SECONDS * each)
        .map(|k| START + (k / each) as u64)
        .collect();
    let (mut storage, mut rust) = (Storage::fresh(), planner());
    record_ours(&mut storage, &seconds);
    record_rust(&mut rust, &seconds);
    assert_equal(&storage, &rust);
    let times = by_side_ready(
        &name,
        seconds.len(),
        (Storage::fresh, |storage: &mut Storage| {
            record_ours(storage, &seconds)
        }),
        (planner, |planner: &mut SpecPlanner| {
            record_rust(planner, &seconds)
        }),
    );
    report.rust.row(&name, goal, times);
}

/// Plans in seconds that are held already, of `rows` that are held.
fn known(name: &str, rows: usize, seconds: &[u64]) -> Times {
    let (storage, rust) = held(rows);
    let (storage, rust) = (RefCell::new(storage), RefCell::new(rust));
    let times = by_side(
        name,
        seconds.len(),
        || record_ours(&mut storage.borrow_mut(), seconds),
        || record_rust(&mut rust.borrow_mut(), seconds),
    );
    assert_equal(&storage.borrow(), &rust.borrow());
    times
}

/// A plan counted among 4,096 seconds, where it stands as `name` says.
fn among_all(report: &mut Report, name: &str, goal: Option<f64>, seconds: &[u64]) {
    let name = format!(
        "ledger: a plan counted, {name} of {} held",
        grouped(SECONDS)
    );
    if report.wants(&name) {
        let times = known(&name, SECONDS, seconds);
        report.rust.row(&name, goal, times);
    }
}

/// `count` seconds, each one of `rows`.
fn random(rows: usize, count: usize) -> Vec<u64> {
    let dice = &mut Dice(11);
    (0..count)
        .map(|_| START + dice.within(0, rows as u64 - 1))
        .collect()
}

/// A plan counted in any of the seconds, by how many are held.
fn grows(report: &mut Report, plans: usize) {
    let name = "ledger: a plan counted in any second, by the seconds held";
    if !report.wants(name) {
        return;
    }
    for rows in [64, 512, SECONDS] {
        let times = known(name, rows, &random(rows, plans));
        report.rust.size(name, rows, times);
    }
}

fn series(report: &mut Report) {
    let name = format!("ledger: a second of the series of {}", grouped(SECONDS));
    if !report.wants(&name) {
        return;
    }
    let (storage, planner) = held(SECONDS);
    assert_equal(&storage, &planner);
    let ours = RefCell::new(Series::with_room(SECONDS));
    let times = by_side_made(
        &name,
        SECONDS,
        || ours.borrow_mut().read(&storage),
        || (),
        |()| planner.depth_series(),
        |rows| rows.len() as u64,
    );
    report.rust.row(&name, None, times);
}

pub fn ledger(report: &mut Report) {
    const PLANS: usize = 20_000;
    let last = START + SECONDS as u64 - 1;
    ascending(report, 16, Some(1.0));
    ascending(report, 1, None);
    among_all(report, "the newest second again", Some(1.0), &[last; PLANS]);
    let every: Vec<u64> = (START..=last).collect();
    among_all(report, "the seconds in order, once each,", None, &every);
    let back = [last, last - HOUR].repeat(PLANS / 2);
    among_all(
        report,
        "the newest second and an hour back in turn,",
        None,
        &back,
    );
    among_all(report, "any second", None, &random(SECONDS, PLANS));
    grows(report, PLANS);
    series(report);
}
