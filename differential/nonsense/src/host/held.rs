//! The calls that are lent a storage alone.
use super::declared::*;
use super::storage::{judged, over};
use super::storages::worker;
use crate::function::Function;
use crate::ledger::calls;
use crate::ledger::changes::{self, HELD_WORKER, NEW_WORKER};
use crate::ledger::layout::*;
use crate::ledger::workers::record;
use crate::turn::one_nan;

pub fn functions() -> Vec<Box<dyn Function>> {
    let mut functions = vec![fresh(), collect(), withdraw(), worker_asked(), day_figure()];
    functions.extend(counts());
    functions
}

fn fresh() -> Box<dyn Function> {
    over("latchmeander_fresh", &[16], |turn, lent, words| {
        // SAFETY: the storage is lent whole, here and below, and nothing else uses it.
        let answer = unsafe { latchmeander_fresh(lent.at_mut(), lent.len()) };
        turn.refusal = judged(words, 0);
        turn.answer(answer, turn.refusal);
        if turn.refusal == 0 {
            words[..ROOM].fill(0);
        }
    })
}

fn collect() -> Box<dyn Function> {
    over("latchmeander_collect", &[16], |turn, lent, words| {
        let (a, b) = worker(words, &mut turn.dice);
        turn.tell("worker", (a, b));
        let answer = unsafe { latchmeander_collect(lent.at_mut(), lent.len(), a, b) };
        turn.refusal = judged(words, 0);
        let mut stall = 0;
        if turn.refusal == 0 {
            let is_held = record(words, a, b).is_some();
            turn.shape = Some(if is_held { "held" } else { "not held" });
            stall = calls::collect(words, a, b);
        }
        let defined = (turn.refusal, one_nan(f64::from_bits(stall)));
        turn.answer((answer.refusal, one_nan(answer.value)), defined);
    })
}

fn withdraw() -> Box<dyn Function> {
    over("latchmeander_withdraw", &[16, 21], |turn, lent, words| {
        let answer = unsafe { latchmeander_withdraw(lent.at_mut(), lent.len()) };
        turn.refusal = judged(words, 0);
        if turn.refusal == 0 {
            let newest = changes::newest(words);
            turn.refusal = calls::withdraw(words);
            turn.shape = (turn.refusal == 0).then(|| shape_of(newest));
        }
        turn.answer(answer, turn.refusal);
    })
}

/// What a change says that it was.
fn shape_of(change: [u64; CHANGE]) -> &'static str {
    match (change[PLANNED] == 1, change[KIND]) {
        (true, NEW_WORKER) => "a plan of a new worker",
        (true, HELD_WORKER) => "a plan of a worker",
        (true, _) => "a plan",
        (false, NEW_WORKER) => "a new worker",
        (false, HELD_WORKER) => "a collection",
        (false, _) => "no change",
    }
}

fn worker_asked() -> Box<dyn Function> {
    over("latchmeander_worker", &[16], |turn, lent, words| {
        let (a, b) = worker(words, &mut turn.dice);
        turn.tell("worker", (a, b));
        let got = unsafe { latchmeander_worker(lent.at(), lent.len(), a, b) };
        turn.refusal = judged(words, 0);
        let found = if turn.refusal == 0 {
            record(words, a, b)
        } else {
            None
        };
        let defined = match found {
            Some(held) => [1, held.width, held.rounds, held.stall],
            None => [0; 4],
        };
        let stall = one_nan(f64::from_bits(defined[3]));
        let answer = [got.held, got.width, got.rounds, one_nan(got.stall)];
        let defined = [defined[0], defined[1], defined[2], stall];
        turn.shape = found.map(|_| "held");
        turn.answer((got.refusal, answer), (turn.refusal, defined));
    })
}

fn day_figure() -> Box<dyn Function> {
    over("latchmeander_day_figure", &[16], |turn, lent, words| {
        let answer = unsafe { latchmeander_day_figure(lent.at(), lent.len()) };
        turn.refusal = judged(words, 0);
        let figure = match turn.refusal {
            0 => calls::day_figure(words),
            _ => 0.0,
        };
        let defined = (turn.refusal, one_nan(figure));
        turn.answer((answer.refusal, one_nan(answer.value)), defined);
    })
}

type Counting = unsafe extern "C" fn(*const u64, usize) -> Count;

/// The three counts: the function, the word that it reads, and the most.
fn counts() -> Vec<Box<dyn Function>> {
    let all: [(&'static str, Counting, usize, usize); 3] = [
        (
            "latchmeander_available",
            latchmeander_available,
            CHANGES_WORD,
            CHANGES_MOST,
        ),
        (
            "latchmeander_seconds_held",
            latchmeander_seconds_held,
            SECONDS_WORD,
            SECONDS_MOST,
        ),
        (
            "latchmeander_workers_held",
            latchmeander_workers_held,
            WORKERS_WORD,
            WORKERS_MOST,
        ),
    ];
    let count = |(name, function, word, most): (&'static str, Counting, usize, usize)| {
        over(name, &[16], move |turn, lent, words| {
            let answer = unsafe { function(lent.at(), lent.len()) };
            let refusal = judged(words, 0);
            let count = match refusal {
                0 => held(words, word, most) as u64,
                _ => 0,
            };
            turn.refusal = refusal;
            turn.answer(answer, Count { refusal, count });
        })
    };
    all.into_iter().map(count).collect()
}
