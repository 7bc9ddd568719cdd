//! The seconds among the words: where one is, and a step added to it and taken from it.
use super::layout::*;

/// The row of a second, or before which it belongs; whether it is held.
pub struct Place {
    pub row: usize,
    pub rows: usize,
    pub known: bool,
}

pub fn place(words: &[u64], second: u64) -> Place {
    let rows = held(words, SECONDS_WORD, SECONDS_MOST);
    let of = |row: usize| words[second_at(row)];
    let row = last_first(&|row| of(row) < second, &|row| of(row) == second, rows);
    let known = row < rows && of(row) == second;
    Place { row, rows, known }
}

/// The steps of a second that is held.
pub fn steps(words: &[u64], second: u64) -> Option<u64> {
    let place = place(words, second);
    place.known.then(|| words[second_at(place.row) + STEPS])
}

/// What a plan adds: its second, its drafts, its sequences, its committed.
pub type Step = [u64; 4];

/// What a step is in the columns of its second's row.
fn columns([_, drafts, sequences, committed]: Step) -> [(usize, u64); 4] {
    [
        (DRAFTS, drafts),
        (SEQUENCES, sequences),
        (COMMITTED, committed),
        (STEPS, 1),
    ]
}

/// One step more; a new second has a row where there is one left.
pub fn add(words: &mut [u64], step: Step) {
    let [second, drafts, sequences, committed] = step;
    let Place { row, rows, known } = place(words, second);
    let at = second_at(row);
    if known {
        for (word, more) in columns(step) {
            words[at + word] = words[at + word].saturating_add(more);
        }
    } else if rows < SECONDS_MOST {
        let row = [second, drafts, sequences, committed, 1];
        put_in(words, at, second_at(rows), &row);
        words[SECONDS_WORD] = rows as u64 + 1;
    }
}

/// One step less of a second that is held, which goes with its last.
pub fn remove(words: &mut [u64], step: Step) {
    let Place { row, rows, known } = place(words, step[0]);
    let at = second_at(row);
    if !known {
        return;
    }
    if words[at + STEPS] > 1 {
        for (word, less) in columns(step) {
            words[at + word] = words[at + word].saturating_sub(less);
        }
    } else {
        take_out(words, at, second_at(rows), SECOND);
        words[SECONDS_WORD] = rows as u64 - 1;
    }
}
