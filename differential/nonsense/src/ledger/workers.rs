//! The workers among the words: where one is, its record, and a record put and taken away.
use super::layout::*;

/// A worker's record as the words have it, the stall by its bits.
#[derive(Clone, Copy, Debug, PartialEq, Eq)]
pub struct Record {
    pub width: u64,
    pub rounds: u64,
    pub stall: u64,
}

impl Record {
    /// Whether switching can go on from it: a width of a draft, a counter that can be counted up, and
    /// a stall that is finite and not below zero.
    pub fn is_right(self) -> bool {
        let is_stall = self.stall < f64::INFINITY.to_bits();
        self.width <= 64 && self.rounds < u64::from(u32::MAX) && is_stall
    }
}

struct Place {
    row: usize,
    rows: usize,
    known: bool,
}

fn place(words: &[u64], a: u64, b: u64) -> Place {
    let rows = held(words, WORKERS_WORD, WORKERS_MOST);
    let of = |row: usize| (words[worker_at(row)], words[worker_at(row) + 1]);
    let row = searched(&|row| of(row) < (a, b), rows);
    let known = row < rows && of(row) == (a, b);
    Place { row, rows, known }
}

pub fn record(words: &[u64], a: u64, b: u64) -> Option<Record> {
    let place = place(words, a, b);
    let at = worker_at(place.row);
    place.known.then(|| Record {
        width: words[at + 2],
        rounds: words[at + 3],
        stall: words[at + 4],
    })
}

/// The record of a worker in its row, or in a new one where there is one left.
pub fn put(words: &mut [u64], a: u64, b: u64, record: Record) {
    let Place { row, rows, known } = place(words, a, b);
    let at = worker_at(row);
    let new = [a, b, record.width, record.rounds, record.stall];
    if known {
        words[at..at + WORKER].copy_from_slice(&new);
    } else if rows < WORKERS_MOST {
        put_in(words, at, worker_at(rows), &new);
        words[WORKERS_WORD] = rows as u64 + 1;
    }
}

/// A worker that is held is no longer.
pub fn drop(words: &mut [u64], a: u64, b: u64) {
    let Place { row, rows, known } = place(words, a, b);
    if known {
        take_out(words, worker_at(row), worker_at(rows), WORKER);
        words[WORKERS_WORD] = rows as u64 - 1;
    }
}
