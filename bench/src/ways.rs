//! How long a width takes to settle: `settling::settles` against the same question in plain Rust, over the Rust's own lookups and walk.
use crate::dice::Dice;
use crate::report::{grouped, Report};
use crate::side::{by_side, Times};
use oracle::compute::measured::probe::of_rows;
use oracle::compute::MeasuredCostTable;
use oracle::simulation::spec::probe;
use std::cell::RefCell;

extern "C" {
    fn bench_settles(
        gamma: u32,
        cooldown: u32,
        cost_ms: f64,
        rows: usize,
        roofline: *const f64,
        roofline_length: usize,
        depths: *const u32,
        depths_length: usize,
        batches: *const u32,
        batches_length: usize,
        seconds: *const f64,
        seconds_length: usize,
        width: u32,
        target: u32,
        widths: *mut u32,
        widths_room: usize,
    ) -> u64;
}

const COOLDOWN: u32 = 2;
const COST_MS: f64 = 5.0;
const ROWS: u32 = 4_096;
const DEPTHS: u32 = 65;
const MOST_WALKS: usize = 64;
const QUESTIONS: usize = 1_000;
const CANDIDATES: [usize; 3] = [5, 17, 65];

/// What both sides are asked over: prices of every depth, or rows of every depth; with rows the roofline is not read.
struct Prices {
    gamma: u32,
    roofline: Vec<f64>,
    depths: Vec<u32>,
    batches: Vec<u32>,
    seconds: Vec<f64>,
    table: Option<MeasuredCostTable>,
}

impl Prices {
    fn new(candidates: usize, rows: u32) -> Prices {
        let depth = |row: u32| row * DEPTHS / ROWS;
        let depths: Vec<u32> = (0..rows).map(depth).collect();
        let batches: Vec<u32> = (0..rows).collect();
        let second = |row: u32| 0.01 + f64::from(depth(row)) * 5e-4 + f64::from(row % 60) * 1e-5;
        let seconds: Vec<f64> = (0..rows).map(second).collect();
        let row = |at: usize| (depths[at], batches[at], seconds[at]);
        let table: Vec<(u32, u32, f64)> = (0..rows as usize).map(row).collect();
        Prices {
            gamma: candidates as u32 - 1,
            roofline: (0..candidates).map(|g| 0.02 + g as f64 * 1e-3).collect(),
            table: (rows > 0).then(|| of_rows(&table)),
            depths,
            batches,
            seconds,
        }
    }

    /// The rounds, with the widths on the way at the front of `widths`.
    fn ours(&self, (width, target): (u32, u32), widths: &mut [u32]) -> u64 {
        unsafe {
            bench_settles(
                self.gamma,
                COOLDOWN,
                COST_MS,
                self.seconds.len(),
                self.roofline.as_ptr(),
                self.roofline.len(),
                self.depths.as_ptr(),
                self.depths.len(),
                self.batches.as_ptr(),
                self.batches.len(),
                self.seconds.as_ptr(),
                self.seconds.len(),
                width,
                target,
                widths.as_mut_ptr(),
                widths.len(),
            )
        }
    }

    /// The price curve of a plan of one sequence, as the Rust's planner makes it.
    fn curve(&self) -> Vec<f64> {
        let at = |g: u32| match &self.table {
            Some(table) => table.step_time(1, g).unwrap_or(f64::INFINITY),
            None => self.roofline[g as usize],
        };
        (0..=self.gamma).map(at).collect()
    }

    /// The same in plain Rust, which judges nothing: every target is a candidate here.
    fn plain(&self, (width, target): (u32, u32), widths: &mut [u32]) -> u64 {
        let curve = self.curve();
        let is_finite = |&g: &u32| curve[g as usize].is_finite();
        let candidates: Vec<u32> = (0..=self.gamma).filter(is_finite).collect();
        let start = candidates.partition_point(|&g| g < width);
        let end = candidates.partition_point(|&g| g < target);
        let walks = start.min(candidates.len() - 1).abs_diff(end).max(1);
        let mut at = width;
        for slot in &mut widths[..walks] {
            at = probe::walk(&candidates, at, target, Some(1));
            *slot = at;
        }
        walks as u64 * u64::from(COOLDOWN.max(1))
    }
}

/// The sum over the rounds and all widths of the questions.
fn all(questions: &[(u32, u32)], ask: impl Fn((u32, u32), &mut [u32]) -> u64) -> u64 {
    let widths = &mut [0; MOST_WALKS];
    questions.iter().fold(0, |sum, &question| {
        let rounds = ask(question, widths);
        let walks = (rounds / u64::from(COOLDOWN)) as usize;
        let way = widths[..walks].iter().map(|&width| u64::from(width));
        sum.wrapping_mul(3).wrapping_add(rounds + way.sum::<u64>())
    })
}

/// The time of a question: any width to any target.
fn measured(name: &str, prices: &Prices) -> Times {
    let dice = RefCell::new(Dice(11));
    let depth = || dice.borrow_mut().within(0, prices.gamma.into()) as u32;
    let questions: Vec<(u32, u32)> = (0..QUESTIONS).map(|_| (depth(), depth())).collect();
    by_side(
        name,
        QUESTIONS,
        || all(&questions, |question, widths| prices.ours(question, widths)),
        || {
            all(&questions, |question, widths| {
                prices.plain(question, widths)
            })
        },
    )
}

pub fn ways(report: &mut Report) {
    for (prices, rows) in [("roofline", 0), ("table", ROWS)] {
        let name = format!("settles: a width by steps of one candidate, {prices}");
        let grows = format!("{name}, by the candidates");
        for candidates in CANDIDATES {
            let prices = Prices::new(candidates, rows);
            if report.wants(&grows) {
                report
                    .rust
                    .size(&grows, candidates, measured(&grows, &prices));
            }
        }
        let most = CANDIDATES[CANDIDATES.len() - 1];
        let name = format!("{name}, {} candidates", grouped(most));
        if report.wants(&name) {
            let times = measured(&name, &Prices::new(most, rows));
            report.rust.row(&name, None, times);
        }
    }
}
