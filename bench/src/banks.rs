//! Trace banks: `bank::read` against `TraceBank::load` of a text that is in memory already.
use crate::dice::Dice;
use crate::ours::Bank;
use crate::report::{grouped, Report};
use crate::side::by_side_made;
use oracle::config::TraceBank;
use std::cell::RefCell;

/// The most rounds that a bank has.
const MOST: usize = 65_536;

/// The header `commits,category,a0..`, and signals of six decimals.
fn bank_text(rounds: usize, depth: usize) -> String {
    let dice = &mut Dice(1);
    let mut text = String::from("commits,category");
    for column in 0..depth {
        text += &format!(",a{column}");
    }
    for _ in 0..rounds {
        text += &format!("\n{},code", dice.within(0, depth as u64));
        for _ in 0..depth {
            text += &format!(",0.{:06}", dice.within(0, 999_999));
        }
    }
    text + "\n"
}

/// A sum over the bits of all that was read.
fn sum(commits: impl Iterator<Item = u32>, floats: impl Iterator<Item = f64>) -> u64 {
    let commits = commits.fold(0u64, |sum, c| sum.wrapping_add(u64::from(c)));
    floats.fold(commits, |sum, x| {
        sum.wrapping_mul(3).wrapping_add(x.to_bits())
    })
}

fn equal(ours: &Bank, rust: &TraceBank) -> bool {
    let signals = rust
        .rounds
        .iter()
        .flat_map(|round| round.a_hat.iter().copied());
    let commits = rust.rounds.iter().map(|round| round.commits);
    let theirs = sum(commits, signals.chain(rust.e_curve.iter().copied()));
    let floats = ours.signals.iter().chain(&ours.curve).copied();
    sum(ours.commits.iter().copied(), floats) == theirs
}

/// The time for each byte of a text. The goal is that of the longest; the shorter ones show how it grows.
fn reading(report: &mut Report, rounds: usize, depth: usize) {
    let family = format!("banks: a byte of a text, by its rounds of {depth}");
    let name = format!(
        "banks: a byte of a text of {} rounds of {depth}",
        grouped(rounds)
    );
    if !report.wants(&name) {
        return;
    }
    let text = bank_text(rounds, depth);
    std_lent::fs::lend_text("lent:bank", &text);
    let bank = RefCell::new(Bank::with_room(rounds, depth));
    bank.borrow_mut().read(&text);
    assert!(equal(
        &bank.borrow(),
        &TraceBank::load("lent:bank").unwrap()
    ));
    let times = by_side_made(
        &name,
        text.len(),
        || bank.borrow_mut().read(&text),
        || std_lent::fs::give_text(text.clone()),
        |()| TraceBank::load("given").unwrap(),
        |bank| bank.rounds.len() as u64,
    );
    if rounds == MOST {
        report.rust.row(&name, Some(0.7), times);
    }
    report.rust.size(&family, rounds, times);
}

pub fn readings(report: &mut Report) {
    for depth in [8, 64] {
        for rounds in [1_000, 8_000, MOST] {
            reading(report, rounds, depth);
        }
    }
}
