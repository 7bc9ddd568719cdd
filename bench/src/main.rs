//! Measures the proved entry points and the Rust's side by side, in one run, turn and turn about.
#[cfg(feature = "rust")]
mod banks;
#[cfg(feature = "rust")]
mod batches;
mod clock;
#[cfg(feature = "rust")]
mod days;
mod dice;
#[cfg(feature = "rust")]
mod gates;
#[cfg(feature = "rust")]
mod goodput;
#[cfg(feature = "rust")]
mod ledger;
#[cfg(feature = "rust")]
mod modes;
mod numbers;
mod ours;
#[cfg(feature = "rust")]
mod plan;
#[cfg(feature = "rust")]
mod plans;
mod report;
mod side;
#[cfg(feature = "rust")]
mod sizes;
#[cfg(feature = "rust")]
mod storage;
#[cfg(feature = "rust")]
mod tables;
#[cfg(feature = "rust")]
mod ways;
#[cfg(feature = "rust")]
mod whole;

use report::Report;

/// What is measured is what has the first argument in its name; without one, everything.
fn main() {
    let mut report = Report::new(std::env::args().nth(1).unwrap_or_default());
    numbers::decimals(&mut report);
    #[cfg(feature = "rust")]
    against_the_files(&mut report);
    report.print();
}

/// What is measured against the Rust's own files.
#[cfg(feature = "rust")]
fn against_the_files(report: &mut Report) {
    banks::readings(report);
    tables::tables(report);
    goodput::goodput(report);
    gates::both(report);
    modes::both(report);
    ledger::ledger(report);
    whole::whole(report);
    ways::ways(report);
}
