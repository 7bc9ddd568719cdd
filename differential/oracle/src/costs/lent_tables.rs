//! Tables that are lent, whole and damaged.
use crate::costs::lent_table::{LentTable, INFINITY};
use crate::costs::table::{self, Row};
use crate::costs::table_texts::{Shape, Text, SHAPES};
use numbers::dice::Dice;

const MOST_SECONDS: u64 = 0x4376_3457_85d8_a000; // 1e17
const MINUS_ZERO: u64 = 0x8000_0000_0000_0000;

/// Seconds that no lent table has.
const NO_SECONDS: &[u64] = &[
    0,
    MOST_SECONDS + 1,
    MINUS_ZERO,
    0x8000_0000_0000_0001, // the largest below zero
    0xbff0_0000_0000_0000, // minus one
    0x7fef_ffff_ffff_ffff, // the largest finite number
    INFINITY,
    0x7ff0_0000_0000_0001, // a signalling NaN
    0x7ff8_0000_0000_0000, // a quiet NaN
    0xfff0_0000_0000_0000, // minus infinity
    0xffff_ffff_ffff_ffff, // a NaN with its sign set
];

/// Seconds at the ends of their range.
const END_SECONDS: &[u64] = &[1, 0x000f_ffff_ffff_ffff, MOST_SECONDS, MOST_SECONDS - 1];

/// The rows of a text that is read, as they are kept.
pub fn kept_rows(shape: Shape, rows: usize, dice: &mut Dice) -> Vec<Row> {
    let text = Text::new(shape, rows, dice).bytes(dice);
    match table::read(&text, usize::MAX) {
        Ok(table) => table.kept,
        Err(_) => Vec::new(),
    }
}

/// A table of up to so many rows, mostly few.
pub fn random_table(most: usize, dice: &mut Dice) -> LentTable {
    let rows = match dice.below(128) {
        0 => dice.between(0, most),
        1 | 2 => dice.between(0, 40),
        3 => 0,
        _ => dice.between(1, 8),
    };
    random_table_of(rows, dice)
}

/// A table of a text of so many rows; a third of them damaged.
pub fn random_table_of(rows: usize, dice: &mut Dice) -> LentTable {
    let mut rows = kept_rows(dice.pick(&SHAPES), rows, dice);
    if !rows.is_empty() && dice.once_in(6) {
        let at = dice.between(0, rows.len() - 1);
        rows[at].seconds = dice.pick(END_SECONDS);
    }
    let mut table = LentTable::of(&rows);
    longer(&mut table, dice);
    if dice.once_in(3) {
        damage(&mut table, dice);
    }
    table
}

/// Columns with slots behind the rows, which hold anything.
fn longer(table: &mut LentTable, dice: &mut Dice) {
    if dice.once_in(2) {
        return;
    }
    for _ in 0..dice.between(0, 2) {
        table.depths.push(dice.bits() as u32);
    }
    for _ in 0..dice.between(0, 2) {
        table.batches.push(dice.bits() as u32);
    }
    for _ in 0..dice.between(0, 2) {
        table.seconds.push(dice.pick(NO_SECONDS));
    }
}

/// One thing that is not as it was.
pub fn damage(table: &mut LentTable, dice: &mut Dice) {
    let rows = table.rows.min(table.depths.len() as u64) as usize;
    let at = dice.between(0, rows.max(1) - 1);
    match dice.below(8) {
        0 => drop(table.depths.pop()),
        1 => drop(table.batches.pop()),
        2 => drop(table.seconds.pop()),
        3 => table.rows = dice.pick(&[table.rows + 1, 4096, 4097, 65_536, 1 << 32, u64::MAX]),
        4 => swap(&mut table.depths, at),
        5 => swap(&mut table.batches, at),
        6 if at < table.depths.len() => table.depths[at] = dice.below(8) as u32,
        _ if at < table.seconds.len() => table.seconds[at] = dice.pick(NO_SECONDS),
        _ => {}
    }
}

/// The table with one thing that is not as it was, every way that there is.
pub fn every_damage(table: &LentTable) -> Vec<LentTable> {
    let mut damaged = Vec::new();
    let mut add = |change: &dyn Fn(&mut LentTable)| {
        let mut copy = table.clone();
        change(&mut copy);
        damaged.push(copy);
    };
    add(&|copy| copy.depths.truncate(copy.depths.len() - 1));
    add(&|copy| copy.batches.truncate(copy.batches.len() - 1));
    add(&|copy| copy.seconds.truncate(copy.seconds.len() - 1));
    for rows in [table.rows - 1, table.rows + 1, 4096, 4097, u64::MAX] {
        add(&|copy| copy.rows = rows);
    }
    add(&|copy| copy.depths[0] = 1);
    add(&|copy| copy.depths.reverse());
    add(&|copy| copy.batches.reverse());
    for &seconds in NO_SECONDS.iter().chain(END_SECONDS) {
        for at in [0, table.seconds.len() - 1] {
            add(&|copy| copy.seconds[at] = seconds);
        }
    }
    damaged
}

/// A slot and the one behind it change places.
fn swap(column: &mut [u32], at: usize) {
    if at + 1 < column.len() {
        column.swap(at, at + 1);
    }
}
