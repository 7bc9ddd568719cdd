//! Cost tables: `measured::read` against `MeasuredCostTable::load` of a text in memory, and one price curve against the Rust's
//! lookups of its 65 depths.
use crate::dice::Dice;
use crate::ours::Table;
use crate::report::{grouped, Report};
use crate::side::{by_side, by_side_made, time_of, Times};
use oracle::compute::measured::probe;
use oracle::compute::MeasuredCostTable;
use std::cell::RefCell;
use std::hint::black_box;

const BATCHES: usize = 64;
const MOST: usize = 4_096;
const SIZES: [usize; 4] = [64, 256, 1_024, MOST];

/// The header and the rows, 64 batches at each depth, in the order that `place` gives.
fn table_text(count: usize, place: impl Fn(usize) -> usize) -> String {
    let dice = &mut Dice(1);
    let row = |k: usize| {
        let (depth, batch) = (k / BATCHES, k % BATCHES);
        let millionths = 10_000 + depth * 500 + batch * 100 + dice.within(0, 99) as usize;
        format!("{},{},0.{millionths:06}\n", 1 + batch * 16, depth + 1)
    };
    let rows: Vec<String> = (0..count).map(row).collect();
    let header = String::from("batch_size,num_draft_tokens,step_seconds\n");
    (0..count).fold(header, |text, k| text + &rows[place(k)])
}

/// Every row once, far from its neighbours: 2,731 has no factor in common with 4,096.
fn shuffled(k: usize) -> usize {
    k * 2_731 % MOST
}

/// The time for each row of a text, where the table that the Rust makes is dropped outside the clock.
fn reading(name: &str, rows: usize, text: &str) -> Times {
    let table = RefCell::new(Table::with_room(rows));
    table.borrow_mut().read(text);
    assert!(equal(&table.borrow(), &probe::parse(text).unwrap()));
    by_side_made(
        name,
        rows,
        || table.borrow_mut().read(text),
        || (),
        |()| probe::parse(text).unwrap(),
        |table| probe::rows(table).len() as u64,
    )
}

fn equal(ours: &Table, rust: &MeasuredCostTable) -> bool {
    let rows = probe::rows(rust);
    let same = |k: usize, row: &(u32, u32, f64)| {
        let (depth, batch, seconds) = *row;
        ours.depths[k] == depth
            && ours.batches[k] == batch
            && ours.seconds[k].to_bits() == seconds.to_bits()
    };
    ours.rows == rows.len() && rows.iter().enumerate().all(|(k, row)| same(k, row))
}

/// An order of rows: its name, the goal of reading them, and which row stands at each place.
type Order = (&'static str, Option<f64>, fn(usize) -> usize);

/// The three orders of 4,096 rows.
fn orders(report: &mut Report) {
    let orders: [Order; 3] = [
        ("in order", Some(0.7), |k| k),
        ("in reverse order", Some(0.7), |k| MOST - 1 - k),
        ("in no order", None, shuffled),
    ];
    for (order, goal, place) in orders {
        let name = format!("tables: a row of a text of {} rows {order}", grouped(MOST));
        if report.wants(&name) {
            let times = reading(&name, MOST, &table_text(MOST, place));
            report.rust.row(&name, goal, times);
        }
    }
}

/// The prices of the depths 0 to 64, as the Rust's planner works them out.
fn rust_curve(table: &MeasuredCostTable, batch: u32, kv_delta: f64) -> Vec<f64> {
    let price = |t: f64| (t + kv_delta).max(0.25 * t);
    (0..=64)
        .map(|g| table.step_time(batch, g).map_or(f64::INFINITY, price))
        .collect()
}

const CURVES: u32 = 1_000;

/// A curve for each of the batches 1 to 1,000, of which one price is handed on.
fn each_curve(price: impl Fn(u32, usize) -> f64) -> u64 {
    (1..=CURVES).fold(0u64, |sum, batch| {
        let bits = price(batch, batch as usize % 65).to_bits();
        sum.wrapping_mul(3).wrapping_add(bits)
    })
}

fn table_of(rows: usize) -> (Table, MeasuredCostTable) {
    let text = table_text(rows, |k| k);
    let mut table = Table::with_room(rows);
    table.read(&text);
    (table, probe::parse(&text).unwrap())
}

/// A curve with the judge of its table, which each call has.
fn curve(name: &str, table: &Table, rust: &MeasuredCostTable) -> Times {
    by_side(
        name,
        CURVES as usize,
        || each_curve(|batch, depth| table.price(batch, 0.001, depth)),
        || each_curve(|batch, depth| black_box(rust_curve(rust, batch, 0.001))[depth]),
    )
}

/// What judging the table takes: a call that is refused behind the judge, less one over a table without rows.
fn judging(table: &Table) -> f64 {
    let refused = |table: &Table| {
        time_of(CURVES as usize, || {
            each_curve(|batch, _| table.price(batch, f64::NAN, 0))
        })
    };
    refused(table) - refused(&Table::with_room(0))
}

fn curves(report: &mut Report) {
    let curve_of = format!("prices: the curve of 65 depths from {} rows", grouped(MOST));
    let (whole, bare) = (
        format!("{curve_of}, the table judged"),
        format!("{curve_of}, without the judge"),
    );
    if !report.wants(&whole) && !report.wants(&bare) {
        return;
    }
    let (table, rust) = table_of(MOST);
    let times = curve(&whole, &table, &rust);
    let ours = times.ours - judging(&table);
    report.rust.row(&whole, None, times);
    report.rust.row(&bare, Some(0.3), Times { ours, ..times });
}

/// A row of a text, by the rows of the table.
fn reading_grows(report: &mut Report) {
    let name = "tables: a row of a text in order, by its rows";
    if !report.wants(name) {
        return;
    }
    for rows in SIZES {
        let times = reading(name, rows, &table_text(rows, |k| k));
        report.rust.size(name, rows, times);
    }
}

/// A curve with the judge of its table, by the rows of the table.
fn curve_grows(report: &mut Report) {
    let name = "prices: a curve with the judge, by the rows of the table";
    if !report.wants(name) {
        return;
    }
    for rows in SIZES {
        let (table, rust) = table_of(rows);
        let times = curve(name, &table, &rust);
        report.rust.size(name, rows, times);
    }
}

pub fn tables(report: &mut Report) {
    orders(report);
    curves(report);
    reading_grows(report);
    curve_grows(report);
}
