//! What is answered of a width that settles, held to the unchanged Rust: its own decisions, round after
//! round, over the prices that its own lookups give.
use crate::config::SwitchConstraints;
use crate::planners::bridged::curve;
use crate::planners::settling::{candidates, pause, Question, Settled};
use crate::planners::unchanged::{switch_of, table};
use crate::planners::world::*;
use crate::simulation::spec::probe::{self, Record};
use numbers::dice::Dice;

/// The most rounds before a walk that are made one by one.
const FEW: u64 = 40;

/// The largest counter of a record.
const MOST_COUNTER: u64 = u32::MAX as u64 - 1;

/// How many walks more a width has to stay.
const MORE: usize = 2;

/// Panics where the Rust's decisions do not do what is answered. A refusal says nothing of them.
pub fn assert_arrives(world: &World, question: Question, settled: &Settled) {
    if matches!(settled, Settled::Refused(_)) {
        return;
    }
    let switch = switch_of(world);
    let is_at_once = *settled == Settled::AtOnce;
    assert_eq!(switch.is_unconstrained(), is_at_once, "{question:?}");
    let mut dice = Dice::new(u64::from(question.width) << 32 | u64::from(question.target));
    let prices = prices(world, &mut dice);
    let depths = (0..).zip(&prices).filter(|(_, price)| price.is_finite());
    let finite: Vec<u32> = depths.map(|(depth, _)| depth).collect();
    assert_eq!(finite, candidates(world), "{question:?}");
    let worker = |counter| Worker {
        prices: &prices,
        target: question.target,
        switch: &switch,
        pause: pause(world),
        record: (question.width, counter, 0.0),
        rounds: 0,
    };
    let counters = counters(pause(world), &mut dice);
    match settled {
        Settled::Within { rounds, widths } => {
            worker(0).assert_takes(*rounds, widths);
            for counter in counters {
                worker(counter).assert_within(*rounds, widths);
            }
        }
        Settled::NoStep(width) | Settled::NoCandidate(width) => {
            worker(0).assert_stays(*width);
            for counter in counters {
                worker(counter).assert_stays(*width);
            }
        }
        _ => {}
    }
}

/// The prices of a plan under GatedAggregate, over any batch. Rates out of range are none of a plan's.
fn prices(world: &World, dice: &mut Dice) -> Vec<f64> {
    let mut gated = world.clone();
    gated.policy = Policy::GatedAggregate;
    if gated.rates.refusal() > 0 {
        gated.rates.kv_delta = 0;
    }
    let n = dice.between(1, 1_024) as u32;
    curve(&gated, n, table(&gated).as_ref())
}

/// Counters to start with: beside the walk, past it, and any.
fn counters(pause: u64, dice: &mut Dice) -> [u32; 5] {
    let any = dice.below(pause + 2);
    let counters = [1, pause - 1, pause, any, dice.below(1 << 32)];
    counters.map(|counter| counter.min(MOST_COUNTER) as u32)
}

/// A worker under the Rust's decisions, and how many it made.
struct Worker<'a> {
    prices: &'a [f64],
    target: u32,
    switch: &'a SwitchConstraints,
    pause: u64,
    record: Record,
    rounds: u64,
}

impl Worker<'_> {
    fn round(&mut self) {
        let held = Some(self.record);
        let (width, record) = probe::choose(held, self.target, self.prices, self.switch);
        assert_eq!(width, record.0);
        self.record = record;
        self.rounds += 1;
    }

    /// Rounds until one walks. In those before it the width stays; where they are many, most of them are
    /// passed over, since they only count.
    fn walk(&mut self) {
        let (width, counter, _) = self.record;
        let waits = (self.pause - 1).saturating_sub(counter.into());
        let passed = if waits > FEW { waits - 2 } else { 0 };
        for wait in 0..waits - passed {
            if wait == 1 {
                self.record.1 += passed as u32;
                self.rounds += passed;
            }
            self.round();
            assert_eq!(self.record.0, width);
            assert_ne!(self.record.1, 0);
        }
        self.round();
        assert_eq!(self.record.1, 0);
    }

    fn assert_walks(&mut self, widths: &[u32]) {
        for &width in widths {
            self.walk();
            assert_eq!(self.record.0, width, "{widths:?}");
        }
    }

    /// Whatever the counter, the width is the target after so many rounds, and stays so.
    fn assert_within(mut self, rounds: u64, widths: &[u32]) {
        self.assert_walks(widths);
        assert_eq!(self.record.0, self.target);
        assert!(self.rounds <= rounds);
        self.assert_walks(&[self.target; MORE]);
    }

    /// With the counter at 0 these are the rounds, and one fewer does not do, unless the width was the
    /// target before.
    fn assert_takes(mut self, rounds: u64, widths: &[u32]) {
        let start = self.record.0;
        let (_, walked) = widths.split_last().expect("at least one walk");
        self.assert_walks(walked);
        assert_eq!(self.record.0 == self.target, start == self.target);
        self.walk();
        assert_eq!((self.rounds, self.record.0), (rounds, self.target));
        self.assert_walks(&[self.target; MORE]);
        assert_eq!(self.rounds, rounds + MORE as u64 * self.pause);
    }

    /// After the first walk the width is this one, and stays so.
    fn assert_stays(mut self, width: u32) {
        self.assert_walks(&[width; 1 + MORE]);
    }
}
