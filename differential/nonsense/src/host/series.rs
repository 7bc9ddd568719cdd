//! The series of the seconds, into lent buffers.
use super::declared::*;
use super::storage::{judged, over};
use crate::function::Function;
use crate::ledger::calls;
use crate::lent::Lent;
use numbers::dice::Dice;

pub fn functions() -> Vec<Box<dyn Function>> {
    vec![series()]
}

const NAMES: [&str; 4] = ["seconds", "mean drafts", "mean batches", "mean committed"];

/// The series into four buffers, each long enough, just so, or one short.
fn series() -> Box<dyn Function> {
    let mut buffers: [Lent<u64>; 4] = Default::default();
    over("latchmeander_series", &[16], move |turn, lent, words| {
        let samples = match judged(words, 0) {
            0 => calls::samples(words),
            _ => Vec::new(),
        };
        let mut contents = [0; 4].map(|_| {
            let len = room_for(samples.len(), &mut turn.dice);
            (0..len).map(|_| turn.dice.bits()).collect::<Vec<u64>>()
        });
        for ((buffer, content), name) in buffers.iter_mut().zip(&contents).zip(NAMES) {
            turn.lend(name, buffer, content);
        }
        let answer = asked(lent, &mut buffers);
        let is_short = contents.iter().any(|content| content.len() < samples.len());
        let refusal = judged(words, if is_short { 16 } else { 0 });
        let held = if refusal == 0 { samples.len() } else { 0 };
        for (row, sample) in samples[..held].iter().enumerate() {
            contents[0][row] = sample.second;
            contents[1][row] = sample.mean_draft;
            contents[2][row] = sample.mean_batch;
            contents[3][row] = sample.mean_committed;
        }
        turn.refusal = refusal;
        let count = held as u64;
        turn.answer(answer, Count { refusal, count });
        for ((buffer, content), name) in buffers.iter().zip(&contents).zip(NAMES) {
            turn.left(name, buffer, content);
        }
    })
}

fn asked(storage: &Lent<u64>, [seconds, drafts, batches, committed]: &mut [Lent<u64>; 4]) -> Count {
    // SAFETY: the buffers are lent whole and apart.
    unsafe {
        latchmeander_series(
            storage.at(),
            storage.len(),
            seconds.at_mut(),
            seconds.len(),
            drafts.floats_mut(),
            drafts.len(),
            batches.floats_mut(),
            batches.len(),
            committed.floats_mut(),
            committed.len(),
        )
    }
}

fn room_for(rows: usize, dice: &mut Dice) -> usize {
    match dice.below(16) {
        0 => rows.saturating_sub(1),
        1 => dice.between(0, rows),
        2..=5 => rows + dice.between(1, 5),
        _ => rows,
    }
}
