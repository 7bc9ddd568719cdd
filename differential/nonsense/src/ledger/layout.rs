//! How the words of the storage lie, rows put in and taken out, and the search by halves.
pub use oracle::storage::ROOM;

pub const SECONDS_MOST: usize = 4_096;
pub const WORKERS_MOST: usize = 256;
pub const CHANGES_MOST: usize = 64;
pub const STEPS_MOST: u64 = 1_000_000;

/// The words of a row of each table.
pub const CHANGE: usize = 11;
pub const WORKER: usize = 5;
pub const SECOND: usize = 5;

/// The words of a second's row behind the second itself.
pub const DRAFTS: usize = 1;
pub const SEQUENCES: usize = 2;
pub const COMMITTED: usize = 3;
pub const STEPS: usize = 4;

/// Of a change, behind its step: whether it is a plan, what became of its worker, and the worker's two numbers.
pub const PLANNED: usize = 4;
pub const KIND: usize = 5;
pub const WORKER_A: usize = 6;
pub const WORKER_B: usize = 7;

/// The words that count the seconds, the workers and the changes, and the one of the next slot.
pub const SECONDS_WORD: usize = 0;
pub const WORKERS_WORD: usize = 1;
pub const CHANGES_WORD: usize = 2;
pub const SLOT_WORD: usize = 3;

/// Where a row of each table starts.
pub fn change_at(slot: usize) -> usize {
    4 + CHANGE * slot
}

pub fn worker_at(row: usize) -> usize {
    change_at(CHANGES_MOST) + WORKER * row
}

pub fn second_at(row: usize) -> usize {
    worker_at(WORKERS_MOST) + SECOND * row
}

/// A count, at most what there is room for.
pub fn held(words: &[u64], word: usize, most: usize) -> usize {
    words[word].min(most as u64) as usize
}

/// The first of `count` rows from `low` on that is not early, by halves.
fn place(early: &dyn Fn(usize) -> bool, mut low: usize, mut count: usize) -> usize {
    while count > 0 {
        let half = count / 2;
        if early(low + half) {
            low += half + 1;
            count -= half + 1;
        } else {
            count = half;
        }
    }
    low
}

pub fn searched(early: &dyn Fn(usize) -> bool, rows: usize) -> usize {
    place(early, 0, rows)
}

/// The same, but that the last row is looked at first.
pub fn last_first(
    early: &dyn Fn(usize) -> bool,
    same: &dyn Fn(usize) -> bool,
    rows: usize,
) -> usize {
    match rows.checked_sub(1) {
        None => 0,
        Some(last) if early(last) => rows,
        Some(last) if same(last) => last,
        Some(last) => searched(early, last),
    }
}

/// A row put in at a word; those from there up to `end` move up, over what stood behind them.
pub fn put_in(words: &mut [u64], at: usize, end: usize, row: &[u64]) {
    words.copy_within(at..end, at + row.len());
    words[at..at + row.len()].copy_from_slice(row);
}

/// A row of so many words taken out; those behind it up to `end` move down, and zeros follow them.
pub fn take_out(words: &mut [u64], at: usize, end: usize, wide: usize) {
    words.copy_within(at + wide..end, at);
    words[end - wide..end].fill(0);
}

#[cfg(test)]
mod tests {
    use super::*;

    #[test]
    fn the_tables_fill_the_room() {
        assert_eq!(second_at(SECONDS_MOST), ROOM);
    }

    #[test]
    fn a_search_ends_at_the_first_row_that_is_not_early() {
        for rows in 0..20 {
            for first in 0..=rows {
                assert_eq!(searched(&|row| row < first, rows), first);
                assert_eq!(last_first(&|row| row < first, &|_| false, rows), first);
            }
        }
    }

    #[test]
    fn what_is_put_in_can_be_taken_out() {
        let mut words = [1, 2, 3, 4, 9, 9, 5];
        put_in(&mut words, 2, 4, &[7, 8]);
        assert_eq!(words, [1, 2, 7, 8, 3, 4, 5]);
        take_out(&mut words, 2, 6, 2);
        assert_eq!(words, [1, 2, 3, 4, 0, 0, 5]);
    }
}
