//! The two gates against the Rust's functions, on the same chains, curves and drafters.
use crate::batches::{drafters, lent_experts, rates, settings, Sequences, BW, PEAK};
use crate::plans::{self, Batch, Drafter, Rates, DEFAULT};
use crate::report::Report;
use crate::side::{by_side, Times};
use crate::sizes::{Size, BY_GAMMA, BY_SEQUENCES};
use oracle::config::SpeculativeConfig;
use oracle::simulation::spec::probe::Gate;
use std::cell::{LazyCell, RefCell};

pub type Ours = fn(&Batch, u32, u32, &Drafter, &Rates, &mut [u32]) -> u64;
type Rust = fn(&Gate, &[Vec<f64>]) -> (Vec<u32>, u64);

/// A gate by its name, on both sides.
pub const GATES: [(&str, Ours, Rust); 2] = [
    ("ragged", plans::ragged, |gate, chains| gate.ragged(chains)),
    ("block", plans::block, |gate, chains| gate.block(chains)),
];

fn with_widths(sum: u64, widths: &[u32]) -> u64 {
    widths.iter().fold(sum, |sum, &w| {
        sum.wrapping_mul(3).wrapping_add(u64::from(w))
    })
}

/// A gate of ours in a price mode, with one drafter.
pub struct Gated<'a> {
    pub gate: Ours,
    pub gamma: u32,
    pub mode: u32,
    pub drafter: &'a Drafter,
    pub rates: &'a Rates<'a>,
}

impl Gated<'_> {
    /// The slots weighed, with the widths at the front of `widths`.
    pub fn weighed(&self, batch: &Batch, widths: &mut [u32]) -> u64 {
        let Gated {
            gate,
            gamma,
            mode,
            drafter,
            rates,
        } = *self;
        let weighed = gate(batch, gamma, mode, drafter, rates, widths);
        assert_ne!(weighed, u64::MAX, "the gate is refused");
        weighed
    }

    /// A sum over the widths of all the batches.
    pub fn sum(&self, batches: &[Sequences], widths: &mut [u32]) -> u64 {
        batches.iter().fold(0, |sum, batch| {
            self.weighed(&batch.ours, widths);
            with_widths(sum, widths)
        })
    }
}

fn rust_gate<'a>(batch: &'a Sequences, cfg: &'a SpeculativeConfig) -> Gate<'a> {
    Gate {
        curve: &batch.ours.curve,
        gamma: cfg.gamma,
        cfg,
        peak: PEAK,
        bw: BW,
        n: batch.chains.len(),
    }
}

/// One gate over the same batches on both sides, with one drafter.
fn gate(
    name: &str,
    (ours, rust): (Ours, Rust),
    batches: &[Sequences],
    (drafter, cfg): (&Drafter, &SpeculativeConfig),
    rates: &Rates,
) -> Times {
    let widths = RefCell::new(vec![0; batches[0].chains.len()]);
    let ours = Gated {
        gate: ours,
        gamma: cfg.gamma,
        mode: DEFAULT,
        drafter,
        rates,
    };
    by_side(
        name,
        batches.len(),
        || ours.sum(batches, &mut widths.borrow_mut()),
        || {
            batches.iter().fold(0, |sum, b| {
                with_widths(sum, &rust(&rust_gate(b, cfg), &b.chains).0)
            })
        },
    )
}

/// Both gates over batches of one size, one row for each drafter.
fn gates(report: &mut Report, size: &Size, rates: &Rates) {
    let batches = LazyCell::new(|| size.batches());
    for (kind, ours, rust) in GATES {
        for (drafter_name, drafter, cost) in drafters() {
            let name = format!("gates: {kind}, {}, {drafter_name} drafter", size.name());
            if report.wants(&name) {
                let cfg = settings(size.gamma, cost);
                let times = gate(&name, (ours, rust), &batches, (&drafter, &cfg), rates);
                report.rust.row(&name, Some(0.8), times);
            }
        }
    }
}

/// What one sequence, or one slot of it, costs a gate at each of the sizes, with whole prices and a fraction drafter.
fn grows(report: &mut Report, by: &str, rates: &Rates) {
    let [(_, drafter, cost), ..] = drafters();
    for (kind, ours, rust) in GATES {
        let name = format!("gates: {kind}, {by}");
        if !report.wants(&name) {
            continue;
        }
        for size in Size::growing(by) {
            let cfg = settings(size.gamma, cost);
            let sides = (ours, rust);
            let whole = gate(&name, sides, &size.batches(), (&drafter, &cfg), rates);
            let grown = size.grown(by);
            report.rust.size(&name, grown, whole.over(grown));
        }
    }
}

pub fn both(report: &mut Report) {
    let loaded = lent_experts();
    let rates = rates(&loaded);
    for holes in [false, true] {
        for size in Size::of_the_goals(holes) {
            gates(report, &size, &rates);
        }
    }
    for by in [BY_SEQUENCES, BY_GAMMA] {
        grows(report, by, &rates);
    }
}
