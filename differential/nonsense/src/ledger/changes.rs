//! The ring of the newest changes: one kept, and the newest taken back.
use super::layout::*;
use super::seconds::Step;
use super::{seconds, workers};
use crate::ledger::workers::Record;

/// What stands in a change for no worker, for one that was new, and for one that had a record.
pub const NO_WORKER: u64 = 0;
pub const NEW_WORKER: u64 = 1;
pub const HELD_WORKER: u64 = 2;

fn next_slot(words: &[u64]) -> usize {
    held(words, SLOT_WORD, CHANGES_MOST - 1)
}

/// The words of a change: its step if it is a plan, and what became of its worker.
pub fn change_of(step: Option<Step>, worker: [u64; CHANGE - KIND]) -> [u64; CHANGE] {
    let mut change = [0; CHANGE];
    if let Some(step) = step {
        change[..PLANNED].copy_from_slice(&step);
        change[PLANNED] = 1;
    }
    change[KIND..].copy_from_slice(&worker);
    change
}

/// A change in the next slot, whatever that held.
pub fn keep(words: &mut [u64], change: [u64; CHANGE]) {
    let slot = next_slot(words);
    let at = change_at(slot);
    let available = held(words, CHANGES_WORD, CHANGES_MOST);
    words[at..at + CHANGE].copy_from_slice(&change);
    words[CHANGES_WORD] = (available + 1).min(CHANGES_MOST) as u64;
    words[SLOT_WORD] = ((slot + 1) % CHANGES_MOST) as u64;
}

fn newest_slot(words: &[u64]) -> usize {
    (next_slot(words) + CHANGES_MOST - 1) % CHANGES_MOST
}

/// The words of the newest change.
pub fn newest(words: &[u64]) -> [u64; CHANGE] {
    let at = change_at(newest_slot(words));
    let mut change = [0; CHANGE];
    change.copy_from_slice(&words[at..at + CHANGE]);
    change
}

/// What the newest change did is taken back: first its step, then what became of its worker. Its slot is
/// free then, and the next.
pub fn take_back(words: &mut [u64]) {
    let available = held(words, CHANGES_WORD, CHANGES_MOST);
    let slot = newest_slot(words);
    let newest = newest(words);
    let [second, drafts, sequences, committed, is_plan, worker @ ..] = newest;
    if is_plan == 1 {
        seconds::remove(words, [second, drafts, sequences, committed]);
    }
    let [kind, a, b, width, rounds, stall] = worker;
    match kind {
        NEW_WORKER => workers::drop(words, a, b),
        HELD_WORKER => {
            let record = Record {
                width,
                rounds,
                stall,
            };
            workers::put(words, a, b, record);
        }
        _ => {}
    }
    words[change_at(slot)..change_at(slot + 1)].fill(0);
    words[CHANGES_WORD] = available as u64 - 1;
    words[SLOT_WORD] = slot as u64;
}
