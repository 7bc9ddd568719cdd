//! Batches: chains and their lengths, a curve, a drafter, its rates and the loaded experts.
use crate::drawn::drafters::{drafter, rates};
use crate::drawn::floats::float;
use crate::turn::{Mixture, Turn};
use numbers::dice::Dice;
use oracle::plans::batch::Batch;
use oracle::plans::batches::{change, put, whole, Shape};
use oracle::plans::chains::{Chains, SLOTS};

/// How many sequences and how deep: mostly few, at times at or past a limit.
fn shape(dice: &mut Dice) -> Shape {
    let n = match dice.below(2048) {
        0 if dice.once_in(8) => dice.between(65, 1023),
        0 => dice.pick(&[1024, 1025]),
        1..=16 => dice.between(9, 64),
        17..=100 => dice.between(9, 20),
        101..=200 => 0,
        _ => dice.between(1, 6),
    };
    let gamma = match dice.below(64) {
        0 => dice.pick(&[0, 63, 64, 65, u32::MAX]),
        1 if n <= 64 => dice.between(17, 64) as u32,
        2..=5 if n <= 64 => dice.between(9, 16) as u32,
        6 | 7 => 0,
        _ => dice.between(1, 6) as u32,
    };
    Shape { n, gamma }
}

/// The chains with every slot written out: 64 for each, what no row says at random.
fn spread(batch: &mut Batch, dice: &mut Dice) {
    let chains = &batch.chains;
    let slot = |at: usize, dice: &mut Dice| match at % SLOTS < chains.width {
        true => chains.slot(at / SLOTS, at % SLOTS),
        false => dice.bits(),
    };
    let slots = chains.slots;
    batch.chains = Chains {
        slots,
        width: SLOTS,
        rows: (0..slots).map(|at| slot(at, dice)).collect(),
    };
}

/// A batch, with so much room for what is written.
pub fn batch(room: fn(&Batch) -> usize, turn: &mut Turn) -> Batch {
    let mut batch = whole(shape(&mut turn.dice), &mut turn.dice);
    batch.room = room(&batch);
    match turn.mixture {
        Mixture::Random => scatter(&mut batch, turn),
        Mixture::Special => {
            for _ in 0..turn.dice.between(0, 2) {
                put_special(&mut batch, turn);
            }
        }
        Mixture::Damaged => {
            for _ in 0..turn.dice.between(1, 3) {
                change(&mut batch, &mut turn.dice);
            }
        }
        Mixture::Good => {}
    }
    spread(&mut batch, &mut turn.dice);
    batch
}

/// Some of its lists become bits at random, of any length.
fn scatter(batch: &mut Batch, turn: &mut Turn) {
    let bits = |list: &mut Vec<u64>, dice: &mut Dice| {
        let length = match dice.once_in(2) {
            true => list.len(),
            false => dice.between(0, 12),
        };
        *list = (0..length).map(|_| dice.bits()).collect();
    };
    let dice = &mut turn.dice;
    match dice.below(6) {
        0 => bits(&mut batch.curve, dice),
        1 => bits(&mut batch.loaded, dice),
        2 => batch.lengths.fill_with(|| dice.bits() as u32),
        3 => batch.chains.rows.fill_with(|| dice.bits()),
        4 => batch.gamma = dice.bits() as u32,
        _ => {
            batch.drafter = drafter(turn);
            batch.rates = rates(turn);
        }
    }
}

/// One special float at one of its places.
fn put_special(batch: &mut Batch, turn: &mut Turn) {
    let special = float(turn);
    let dice = &mut turn.dice;
    match dice.below(6) {
        0 => put(&mut batch.curve, special, dice),
        1 => put(&mut batch.loaded, special, dice),
        2 | 3 => put(&mut batch.chains.rows, special, dice),
        4 => batch.rates.peak = special,
        _ => batch.rates.bw = special,
    }
}
