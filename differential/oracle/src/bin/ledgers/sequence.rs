//! A sequence of calls on one storage, and the case that it makes.
use crate::afresh::Afresh;
use crate::call::{Call, Outcome, Step};
use crate::digest::{of_held, of_short_storage, Buffers, Sums};
use crate::ledger::Ledger;
use crate::sequence_case::SequenceCase;
use crate::worker::Worker;
use numbers::second::second;
use numbers::word_case::WordCase;
use oracle::simulation::spec::probe::Record;

pub use oracle::storage::ROOM;

/// The words that the replaying program has.
pub const WHOLE: usize = ROOM + 8;

/// What a word of the storage holds before the first call.
const WORD_BEFORE: u64 = 0xDEAD_BEEF;

/// Slots of the longest buffer that a case may lend.
pub const MOST_SLOTS: usize = 4_104;

#[derive(Clone, Debug)]
pub struct Sequence {
    /// What sort of sequence it is.
    pub kind: u8,
    /// The words of the storage that is lent, the front of those that there are.
    pub lent: usize,
    /// The slots of the series' buffers.
    pub slots: [usize; 4],
    pub workers: Vec<Worker>,
    pub calls: Vec<Call>,
}

impl Sequence {
    /// The case: each call's outcome and the digest after it, then the digest of the storage's words
    /// that no call may write.
    pub fn case(&self) -> SequenceCase {
        let mut input = self.heading();
        let mut answer = Vec::new();
        let mut buffers = Buffers::lent(self.slots);
        let mut ledger = Ledger::new(&self.workers);
        let mut held = ledger.afresh();
        let mut outcomes = Vec::new();
        for call in &self.calls {
            input.extend(self.words(call, &held));
            let (outcome, sums) = if self.is_short() {
                let sums = of_short_storage(self.workers.len(), &buffers);
                (Outcome::refused(16), sums)
            } else {
                let outcome = ledger.obey(call, &held);
                held = ledger.afresh();
                (outcome, of_held(&held, ledger.available, &mut buffers))
            };
            answer.extend([outcome.refusal, outcome.value, sums.first, sums.second]);
            outcomes.push(outcome);
        }
        let kept = if self.is_short() { WHOLE } else { WHOLE - ROOM };
        let sums = Sums::default().and(std::iter::repeat_n(WORD_BEFORE, kept));
        answer.extend([sums.first, sums.second]);
        let case = WordCase::new(self.kind, input, answer);
        SequenceCase(case.with_traits(&self.traits(&outcomes)))
    }

    /// What its calls met: a stall that was collected, a withdrawal, a clock that went back.
    fn traits(&self, outcomes: &[Outcome]) -> [(&'static str, bool); 3] {
        let mut calls = self.calls.iter().zip(outcomes);
        let stalled = |(call, outcome): (&Call, &Outcome)| {
            matches!(call, Call::Collect { .. }) && outcome.value > 0
        };
        let withdrawn = |(call, outcome): (&Call, &Outcome)| {
            matches!(call, Call::Withdraw) && outcome.refusal == 0
        };
        let ends = self.calls.iter().filter_map(|call| match call {
            Call::Plan(Step { end, .. }) | Call::Decide { end, .. } => Some(second(*end)),
            _ => None,
        });
        let ends: Vec<u64> = ends.collect();
        [
            ("stalled", calls.clone().any(stalled)),
            ("withdrawn", calls.any(withdrawn)),
            ("clock back", ends.windows(2).any(|pair| pair[1] < pair[0])),
        ]
    }

    fn is_short(&self) -> bool {
        self.lent < ROOM
    }

    /// The words before the calls: the storage's words, the slots, the workers, how many calls.
    fn heading(&self) -> Vec<u64> {
        assert!(self.lent <= WHOLE && self.slots.iter().all(|&slots| slots <= MOST_SLOTS));
        let sizes = std::iter::once(self.lent).chain(self.slots);
        let mut words: Vec<u64> = sizes.map(|size| size as u64).collect();
        words.push(self.workers.len() as u64);
        let names = self.workers.iter();
        words.extend(names.flat_map(|worker| [worker.first, worker.second]));
        words.push(self.calls.len() as u64);
        words
    }

    /// A call's letter and its words; `held` is what is held before it.
    fn words(&self, call: &Call, held: &Afresh) -> Vec<u64> {
        let (letter, words) = match *call {
            Call::Fresh => (b'f', vec![]),
            Call::Plan(step) => (b'p', step_words(step).to_vec()),
            Call::Decide {
                end,
                sequences,
                share,
                worker,
                target,
            } => {
                let after = self.workers[worker].decided(held.records[worker], target);
                let step = Step::of_width(after.0, end, sequences, share);
                let record = record_words(after).to_vec();
                let words = [step_words(step).to_vec(), vec![worker as u64], record];
                (b'd', words.concat())
            }
            Call::Collect { worker } => (b'c', vec![worker as u64]),
            Call::Withdraw => (b'w', vec![]),
            Call::JudgeStep { end } => (b'j', vec![second(end)]),
            Call::JudgeWorker { worker } => (b'k', vec![worker as u64]),
            _ => many_words(call),
        };
        std::iter::once(letter.into()).chain(words).collect()
    }
}

/// The same of many calls in one.
fn many_words(call: &Call) -> (u8, Vec<u64>) {
    match *call {
        Call::ManyPlans {
            count,
            apart,
            first,
        } => {
            let words = [vec![count, apart], step_words(first).to_vec()];
            (b's', words.concat())
        }
        Call::ManyWorkers {
            count,
            from,
            end,
            sequences,
            share,
            target,
        } => {
            let step = Step::of_width(target, end, sequences, share);
            let places = vec![count as u64, from as u64];
            let words = [places, step_words(step).to_vec(), vec![target.into()]];
            (b'm', words.concat())
        }
        Call::ManyWithdrawals { count } => (b'x', vec![count]),
        _ => panic!("one call: {call:?}"),
    }
}

fn step_words(step: Step) -> [u64; 4] {
    let second = second(step.end);
    [second, step.drafts, step.sequences, step.committed]
}

fn record_words((width, rounds, stall): Record) -> [u64; 3] {
    [width.into(), rounds.into(), stall.to_bits()]
}
