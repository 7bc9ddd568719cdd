//! The two gates in the bridged price mode against the same gates in the default mode, on the same chains, curves and drafters.
//! On these whole curves both modes have the same answers. Where prices have holes they have others, and the ratio says what
//! crossing the holes costs.
use crate::batches::{drafters, lent_experts, rates, Sequences};
use crate::gates::{Gated, Ours, GATES};
use crate::plans::{Drafter, Rates, BRIDGED, DEFAULT};
use crate::report::Report;
use crate::side::{uncompared, Times};
use crate::sizes::{Size, BY_GAMMA, BY_SEQUENCES};
use std::cell::{LazyCell, RefCell};

/// The most of the default mode's time that the bridged mode may take on a whole curve.
const GOAL: f64 = 1.25;

fn bridged<'a>(gate: Ours, size: &Size, drafter: &'a Drafter, rates: &'a Rates) -> Gated<'a> {
    Gated {
        gate,
        gamma: size.gamma as u32,
        mode: BRIDGED,
        drafter,
        rates,
    }
}

/// Both modes weigh as many slots of each batch and leave the same widths.
fn assert_alike(name: &str, bridged: &Gated, default: &Gated, batches: &[Sequences]) {
    for batch in batches {
        let [b, d] = [bridged, default].map(|gated| {
            let mut widths = vec![0; batch.chains.len()];
            (gated.weighed(&batch.ours, &mut widths), widths)
        });
        assert_eq!(b, d, "{name}: the modes answer differently");
    }
}

/// One gate over the same batches in both modes.
fn gate(name: &str, bridged: Gated, size: &Size, batches: &[Sequences]) -> Times {
    let default = Gated {
        mode: DEFAULT,
        ..bridged
    };
    if !size.holes {
        assert_alike(name, &bridged, &default, batches);
    }
    let widths = RefCell::new(vec![0; size.n]);
    let bridged = || bridged.sum(batches, &mut widths.borrow_mut());
    let default = || default.sum(batches, &mut widths.borrow_mut());
    uncompared(batches.len(), bridged, default)
}

/// Both gates over batches of one size, one row for each drafter; with holes for the first of them alone.
fn gates(report: &mut Report, size: &Size, rates: &Rates) {
    let batches = LazyCell::new(|| size.batches());
    let kinds = if size.holes { 1 } else { drafters().len() };
    for (kind, ours, _) in GATES {
        for (drafter_name, drafter, _) in drafters().into_iter().take(kinds) {
            let name = format!("modes: {kind}, {}, {drafter_name} drafter", size.name());
            if report.wants(&name) {
                let goal = (!size.holes).then_some(GOAL);
                let gated = bridged(ours, size, &drafter, rates);
                let times = gate(&name, gated, size, &batches);
                report.modes.row(&name, goal, times);
            }
        }
    }
}

/// What one sequence, or one slot of it, costs a gate at each of the sizes, with whole prices and a fraction drafter.
fn grows(report: &mut Report, by: &str, rates: &Rates) {
    let [(_, drafter, _), ..] = drafters();
    for (kind, ours, _) in GATES {
        let name = format!("modes: {kind}, {by}");
        if !report.wants(&name) {
            continue;
        }
        for size in Size::growing(by) {
            let gated = bridged(ours, &size, &drafter, rates);
            let whole = gate(&name, gated, &size, &size.batches());
            let grown = size.grown(by);
            report.modes.size(&name, grown, whole.over(grown));
        }
    }
}

pub fn both(report: &mut Report) {
    let loaded = lent_experts();
    let rates = rates(&loaded);
    for holes in [false, true] {
        for size in Size::of_the_goals(holes) {
            gates(report, &size, &rates);
        }
    }
    for by in [BY_SEQUENCES, BY_GAMMA] {
        grows(report, by, &rates);
    }
}
