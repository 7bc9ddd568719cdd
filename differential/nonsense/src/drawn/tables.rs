//! Cost tables that are lent as three columns.
use crate::drawn::floats::float;
use crate::turn::{Mixture, Turn};
use oracle::costs::lent_table::LentTable;
use oracle::costs::lent_tables::{damage, kept_rows};
use oracle::costs::table::Row;
use oracle::costs::table_texts::SHAPES;

/// A table: the rows that a text keeps, whole or damaged, or columns of numbers at random.
pub fn table(turn: &mut Turn) -> LentTable {
    match turn.mixture {
        Mixture::Random => random(turn),
        Mixture::Special => special(turn),
        Mixture::Damaged => {
            let mut table = good(turn);
            for _ in 0..turn.dice.pick(&[1, 1, 2, 3]) {
                damage(&mut table, &mut turn.dice);
            }
            table
        }
        Mixture::Good => good(turn),
    }
}

fn rows(turn: &mut Turn) -> usize {
    match turn.dice.below(256) {
        0 => turn.dice.between(0, 400),
        1..=8 => turn.dice.between(0, 40),
        9..=16 => 0,
        _ => turn.dice.between(1, 8),
    }
}

/// As many rows as there may be, or one more: 64 batches of each depth.
fn largest(turn: &mut Turn) -> LentTable {
    let row = |at: u32| Row {
        depth: at / 64,
        batch: at % 64 * 3,
        seconds: (1.0 + f64::from(at)).to_bits(),
    };
    let mut table = LentTable::of(&(0..4097).map(row).collect::<Vec<Row>>());
    table.rows = turn.dice.pick(&[4095, 4096, 4097]);
    table
}

fn good(turn: &mut Turn) -> LentTable {
    if turn.dice.once_in(512) {
        return largest(turn);
    }
    let rows = rows(turn);
    let shape = turn.dice.pick(&SHAPES);
    LentTable::of(&kept_rows(shape, rows, &mut turn.dice))
}

/// Columns of any bits, about as long as the rows.
fn random(turn: &mut Turn) -> LentTable {
    let dice = &mut turn.dice;
    let mut length = || dice.between(0, 12);
    let lengths = [length(), length(), length()];
    let mut whole = || dice.bits() as u32;
    let depths = (0..lengths[0]).map(|_| whole()).collect();
    let batches = (0..lengths[1]).map(|_| whole()).collect();
    LentTable {
        rows: match dice.below(3) {
            0 => dice.bits(),
            _ => dice.below(12),
        },
        depths,
        batches,
        seconds: (0..lengths[2]).map(|_| dice.bits()).collect(),
    }
}

/// Few numbers in order, special seconds among them, and sizes at the limits.
fn special(turn: &mut Turn) -> LentTable {
    let count = turn.dice.between(0, 6);
    let mut places: Vec<(u32, u32)> = Vec::new();
    for _ in 0..count {
        let depth = turn.dice.pick(&[0, 0, 1, 64, 65, u32::MAX]);
        places.push((depth, turn.dice.pick(&[0, 1, 2, 1024, u32::MAX])));
    }
    if !turn.dice.once_in(8) {
        places.sort();
    }
    let seconds = |turn: &mut Turn| match turn.dice.below(4) {
        0 => float(turn),
        1 => turn.dice.pick(&[1, 1e17f64.to_bits()]),
        _ => 0.5f64.to_bits(),
    };
    LentTable {
        rows: match turn.dice.below(8) {
            0 => turn.dice.pick(&[4096, 4097, u64::MAX, 1 << 32]),
            1 => turn.dice.below(8),
            _ => count as u64,
        },
        depths: places.iter().map(|place| place.0).collect(),
        batches: places.iter().map(|place| place.1).collect(),
        seconds: (0..count).map(|_| seconds(turn)).collect(),
    }
}
