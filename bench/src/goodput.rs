//! The expected acceptance of 1,024 chains and the best of 65 depths, against the Rust's functions.
use crate::batches::{drafters, lent_experts, rates, sequences, settings, Sequences, BW, PEAK};
use crate::dice::Dice;
use crate::plans::{self, Drafter, Rates};
use crate::report::Report;
use crate::side::{by_side, Times};
use oracle::config::DrafterCost;
use oracle::simulation::spec::probe::{self, Gate};
use std::cell::{LazyCell, RefCell};
use std::hint::black_box;

const GAMMA: usize = 64;

/// Expected values and a price curve.
type Asked = (Vec<f64>, Vec<f64>);

fn with_bits(sum: u64, values: &[f64]) -> u64 {
    values
        .iter()
        .fold(sum, |sum, x| sum.wrapping_mul(3).wrapping_add(x.to_bits()))
}

fn expected(report: &mut Report) {
    const BATCHES: usize = 4;
    let name = "goodput: the expected acceptance at 65 depths of 1,024 chains of 64";
    if !report.wants(name) {
        return;
    }
    let dice = &mut Dice(2);
    let batches: Vec<Sequences> = (0..BATCHES)
        .map(|_| sequences(1_024, GAMMA, false, dice))
        .collect();
    let out = RefCell::new([0.0; GAMMA + 1]);
    let times = by_side(
        name,
        BATCHES,
        || {
            batches.iter().fold(0, |sum, b| {
                let out = &mut *out.borrow_mut();
                assert_eq!(plans::expected(&b.ours, GAMMA as u32, out), 0);
                with_bits(sum, out)
            })
        },
        || {
            batches.iter().fold(0, |sum, b| {
                with_bits(sum, &probe::expected_by_depth(&b.chains, GAMMA as u32))
            })
        },
    );
    report.rust.row(name, Some(1.0), times);
}

const DEPTHS: usize = 500;
const N: usize = 64;

/// The best depths of expected values and price curves.
fn depths(
    name: &str,
    drafter: &Drafter,
    cost: DrafterCost,
    rates: &Rates,
    asked: &[Asked],
) -> Times {
    let cfg = settings(GAMMA, cost);
    let ours = |expected: &[f64], curve: &[f64]| {
        plans::depth(expected, curve, GAMMA as u32, N as u32, drafter, rates)
    };
    let rust = |expected: &[f64], curve: &[f64]| {
        let gate = Gate {
            curve,
            gamma: GAMMA as u32,
            cfg: &cfg,
            peak: PEAK,
            bw: BW,
            n: N,
        };
        gate.best_depth(expected)
    };
    let each = |depth: &dyn Fn(&[f64], &[f64]) -> u32| {
        asked.iter().fold(0u64, |sum, (expected, curve)| {
            let depth = depth(black_box(expected), curve);
            sum.wrapping_mul(3).wrapping_add(u64::from(depth))
        })
    };
    by_side(name, asked.len(), || each(&ours), || each(&rust))
}

/// For each drafter the same 500 batches.
fn best_depths(report: &mut Report, holes: bool) {
    let loaded = lent_experts();
    let rates = rates(&loaded);
    let asked = LazyCell::new(|| -> Vec<Asked> {
        let dice = &mut Dice(3 + u64::from(holes));
        (0..DEPTHS)
            .map(|_| sequences(N, GAMMA, holes, dice))
            .map(|b| {
                (
                    probe::expected_by_depth(&b.chains, GAMMA as u32),
                    b.ours.curve,
                )
            })
            .collect()
    });
    let prices = if holes { "with holes" } else { "whole" };
    for (kind, drafter, cost) in drafters() {
        let name = format!("goodput: the best of 65 depths, prices {prices}, {kind} drafter");
        if report.wants(&name) {
            let times = depths(&name, &drafter, cost, &rates, &asked);
            report.rust.row(&name, Some(1.0), times);
        }
    }
}

pub fn goodput(report: &mut Report) {
    expected(report);
    best_depths(report, false);
    best_depths(report, true);
}
