//! `ledger` and `ledger_sums`: what is asked of a storage, and a plan that is kept in it.
use crate::exported::{compare, Refusal, Told};
use crate::function::Function;
use crate::host::storage::{judged, over};
use crate::host::storages::{second, worker};
use crate::ledger::calls;
use crate::ledger::layout::*;
use crate::ledger::workers::{record, Record};
use numbers::dice::Dice;

// Of a storage the address of a lent buffer and its length.
unsafe extern "C" {
    fn ledger_judge_step(storage: *const u64, len: usize, second: u64) -> Refusal;
    fn ledger_judge_worker(storage: *const u64, len: usize, a: u64, b: u64) -> Refusal;
    fn ledger_record(
        storage: *mut u64,
        len: usize,
        second: u64,
        drafts: u64,
        sequences: u64,
        committed: u64,
        puts: u64,
        a: u64,
        b: u64,
        width: u64,
        rounds: u64,
        stall: u64,
    ) -> Refusal;
    fn ledger_sums_sums(storage: *const u64, len: usize, row: u64, part: u64) -> Told;
}

pub fn functions() -> Vec<Box<dyn Function>> {
    vec![judge_step(), judge_worker(), recorded(), sums()]
}

fn judge_step() -> Box<dyn Function> {
    over("ledger_judge_step", &[16, 18, 19], |turn, lent, words| {
        let second = second(words, &mut turn.dice);
        turn.tell("second", second);
        // SAFETY: the storage is lent whole, here and below.
        let answered = unsafe { ledger_judge_step(lent.at(), lent.len(), second) };
        compare(turn, answered, Refusal(calls::refusal(words, second, None)));
    })
}

fn judge_worker() -> Box<dyn Function> {
    over("ledger_judge_worker", &[16, 17], |turn, lent, words| {
        let (a, b) = worker(words, &mut turn.dice);
        turn.tell("worker", (a, b));
        let answered = unsafe { ledger_judge_worker(lent.at(), lent.len(), a, b) };
        let refusal = match judged(words, 0) {
            0 if is_full(words) && record(words, a, b).is_none() => 17,
            number => number,
        };
        compare(turn, answered, Refusal(refusal));
    })
}

fn is_full(words: &[u64]) -> bool {
    held(words, WORKERS_WORD, WORKERS_MOST) == WORKERS_MOST
}

/// A record of any words, most of them small.
fn drawn_record(dice: &mut Dice) -> Record {
    let mut word = |most: u64| match dice.below(4) {
        0 => dice.bits(),
        _ => dice.below(most),
    };
    Record {
        width: word(65),
        rounds: word(5),
        stall: word(u64::MAX),
    }
}

fn recorded() -> Box<dyn Function> {
    let refuses = &[16, 17, 18, 19];
    over("ledger_record", refuses, |turn, lent, words| {
        let dice = &mut turn.dice;
        let (second, (a, b)) = (second(words, dice), worker(words, dice));
        let mut sum = || match dice.below(8) {
            0 => dice.bits(),
            _ => dice.below(1000),
        };
        let (drafts, sequences, committed) = (sum(), sum(), sum());
        let put = drawn_record(dice);
        let is_put = dice.once_in(2);
        let step = [second, drafts, sequences, committed];
        turn.tell("second, drafts, sequences, committed", step);
        turn.tell("worker", (is_put, a, b, put));
        let (width, rounds, stall) = (put.width, put.rounds, put.stall);
        let puts = u64::from(is_put);
        let (at, len) = (lent.at_mut(), lent.len());
        let answered = unsafe {
            ledger_record(
                at, len, second, drafts, sequences, committed, puts, a, b, width, rounds, stall,
            )
        };
        let refusal = calls::refusal(words, second, is_put.then_some((a, b)));
        if refusal == 0 {
            let put = is_put.then_some((a, b, put));
            turn.shape = Some(match put {
                None => "of no worker",
                Some(_) if record(words, a, b).is_some() => "of a held worker",
                Some(_) => "of a new worker",
            });
            calls::plan(words, step, put);
        }
        compare(turn, answered, Refusal(refusal));
    })
}

fn sums() -> Box<dyn Function> {
    over("ledger_sums_sums", &[16], |turn, lent, words| {
        let dice = &mut turn.dice;
        let rows = match judged(words, 0) {
            0 => held(words, SECONDS_WORD, SECONDS_MOST),
            _ => 0,
        };
        let row = match dice.below(4) {
            0 => dice.bits() >> dice.below(64),
            1 => dice.between(rows.saturating_sub(1), rows + 1) as u64,
            _ => dice.between(0, rows) as u64,
        };
        let part = dice.below(6);
        turn.tell("row and part", (row, part));
        let answered = unsafe { ledger_sums_sums(lent.at(), lent.len(), row, part) };
        let defined = match judged(words, 0) {
            0 if row < rows as u64 => {
                turn.shape = Some("held");
                Told::of(1, words[second_at(row as usize) + part.min(4) as usize])
            }
            0 => Told::default(),
            _ => Told::refused(16),
        };
        compare(turn, answered, defined);
    })
}
