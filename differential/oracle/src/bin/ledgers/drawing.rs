//! Draws what sequences are made of: clocks, workers and calls.
use crate::call::{Call, Step};
use crate::worker::Worker;
use numbers::dice::Dice;
use oracle::clock::Clock;
use oracle::config::SwitchConstraints;
use std::collections::HashSet;

const MOST_SEQUENCES: u64 = 1024;
const MOST_DRAFTS: u64 = 65_536;
const MOST_WIDTH: usize = 64;

/// Workers of different names, many of them alike in one of the two numbers.
pub fn workers(count: usize, dice: &mut Dice) -> Vec<Worker> {
    let mut names = HashSet::new();
    let mut workers = Vec::new();
    while workers.len() < count {
        let [first, second] = [number(count, dice), number(count, dice)];
        if names.insert((first, second)) {
            workers.push(worker(first, second, dice));
        }
    }
    workers
}

fn number(count: usize, dice: &mut Dice) -> u64 {
    match dice.below(8) {
        0 => dice.pick(&[u64::MAX, u64::MAX - 1, 1 << 63, 1 << 32, u32::MAX.into()]),
        1 => dice.bits(),
        _ => dice.below(count as u64 + 2),
    }
}

fn worker(first: u64, second: u64, dice: &mut Dice) -> Worker {
    let mut switch = SwitchConstraints {
        cooldown_rounds: dice.pick(&[0, 1, 1, 2, 2, 3, 7, u32::MAX]),
        max_step: dice.pick(&[None, Some(0), Some(1), Some(1), Some(2), Some(u32::MAX)]),
        cost_ms: dice.pick(&[0.0, 0.1, 5.0, 33.3, 250.0, 3_600_000.0]),
    };
    if switch.is_unconstrained() {
        switch.cooldown_rounds = 2;
    }
    Worker {
        first,
        second,
        curve: curve(dice),
        switch,
    }
}

/// Prices and holes.
fn curve(dice: &mut Dice) -> Vec<f64> {
    let length = match dice.below(8) {
        0 => dice.between(1, MOST_WIDTH + 1),
        _ => dice.between(1, 9),
    };
    let holes = dice.between(1, 4) as u64;
    let price = |dice: &mut Dice| match dice.once_in(holes) {
        true => dice.below(100_000) as f64 / 10_000.0,
        false => f64::INFINITY,
    };
    (0..length).map(|_| price(dice)).collect()
}

pub fn target(dice: &mut Dice) -> u32 {
    let most = dice.pick(&[3, 9, 9, MOST_WIDTH]);
    dice.between(0, most) as u32
}

pub fn sequences(dice: &mut Dice) -> u64 {
    match dice.below(8) {
        0 => dice.pick(&[1, MOST_SEQUENCES - 1, MOST_SEQUENCES]),
        1 | 2 => 1 + dice.below(MOST_SEQUENCES),
        _ => 1 + dice.below(8),
    }
}

/// Any drafts, and any part of them committed.
pub fn step(end: u64, dice: &mut Dice) -> Step {
    let sequences = sequences(dice);
    let drafts = match dice.below(8) {
        0 => dice.pick(&[0, MOST_DRAFTS]),
        1 => dice.below(MOST_DRAFTS + 1),
        _ => sequences * dice.below(9),
    };
    Step {
        end,
        drafts,
        sequences,
        committed: dice.below(drafts + 1),
    }
}

/// How many in a hundred.
pub fn share(dice: &mut Dice) -> u64 {
    dice.below(101)
}

/// How often each sort of call is made: plans of no worker, decisions, collections, withdrawals,
/// judgements.
const MIXES: &[[u64; 5]] = &[
    [8, 0, 0, 2, 1],
    [1, 8, 3, 1, 1],
    [3, 3, 2, 2, 1],
    [2, 4, 2, 8, 1],
    [4, 4, 1, 0, 0],
];

/// Draws the calls of one sequence.
pub struct Calls {
    pub clock: Clock,
    pub workers: usize,
    mix: [u64; 5],
}

impl Calls {
    pub fn new(clock: Clock, workers: usize, dice: &mut Dice) -> Calls {
        let mix = dice.pick(MIXES);
        Calls {
            clock,
            workers,
            mix,
        }
    }

    /// So many calls, a run of calls of one sort behind the other.
    pub fn draw(&mut self, count: usize, dice: &mut Dice) -> Vec<Call> {
        let mut calls = Vec::new();
        while calls.len() < count {
            let sort = self.sort(dice);
            let run = match dice.below(12) {
                0 => dice.between(2, 12),
                1 if count > 60 => dice.between(40, 75),
                _ => 1,
            };
            for _ in 0..run.min(count - calls.len()) {
                calls.push(self.one(sort, dice));
            }
        }
        calls
    }

    fn sort(&self, dice: &mut Dice) -> usize {
        let mut left = dice.below(self.mix.iter().sum());
        let is_it = |&often: &u64| match left.checked_sub(often) {
            Some(rest) => {
                left = rest;
                false
            }
            None => true,
        };
        self.mix.iter().position(is_it).expect("a sort of call")
    }

    fn one(&mut self, sort: usize, dice: &mut Dice) -> Call {
        let worker = self.worker(dice);
        match (sort, worker) {
            (1, Some(worker)) => Call::Decide {
                end: self.clock.next(dice),
                sequences: sequences(dice),
                share: share(dice),
                worker,
                target: target(dice),
            },
            (2, Some(worker)) => Call::Collect { worker },
            (3, _) if dice.once_in(16) => Call::ManyWithdrawals {
                count: 1 + dice.below(70),
            },
            (3, _) => Call::Withdraw,
            (4, Some(worker)) if dice.once_in(2) => Call::JudgeWorker { worker },
            (4, _) => Call::JudgeStep {
                end: self.clock.next(dice),
            },
            _ => Call::Plan(step(self.clock.next(dice), dice)),
        }
    }

    /// Any worker, or one of the last, which have no record yet where many were given one.
    fn worker(&self, dice: &mut Dice) -> Option<usize> {
        let last = self.workers.checked_sub(1)?;
        let from = if dice.once_in(2) {
            0
        } else {
            last.saturating_sub(8)
        };
        Some(dice.between(from, last))
    }
}
