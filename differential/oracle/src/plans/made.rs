//! Batches made by hand: special values at every place, sizes and rooms at and beside their limits,
//! every pattern of holes, equal survivals, and the largest.
use crate::drafter::{Drafter, Rates, MOST_SEQUENCES};
use crate::drafter_values::{HALF, ONE, SPECIALS};
use crate::plans::batch::{Asked, Batch};
use crate::plans::chains::{Chains, SLOTS};
use crate::plans::prices::{put_pattern, MINUS_ZERO};
use numbers::dice::Dice;
use numbers::word_case::WordCase;

/// One in so many: a number that has no divisor in common with the questions of a batch takes some of
/// each.
pub fn sparse<T>(all: Vec<T>, step: usize) -> Vec<T> {
    all.into_iter().step_by(step).collect()
}

pub fn bits(floats: &[f64]) -> Vec<u64> {
    floats.iter().map(|x| x.to_bits()).collect()
}

pub fn drafters() -> [Drafter; 3] {
    [
        Drafter::Fraction {
            frac: 0.03125f64.to_bits(),
        },
        Drafter::Autoregressive {
            dense_params: 3e10f64.to_bits(),
            expert_params: 1e9f64.to_bits(),
            num_experts: 256,
            experts_per_tok: 8,
            shared_experts: 1,
        },
        Drafter::BlockParallel {
            params: 4e10f64.to_bits(),
            block: 16,
        },
    ]
}

pub fn rates() -> Rates {
    Rates {
        peak: 1e15f64.to_bits(),
        bw: 2e12f64.to_bits(),
        kv_delta: 0,
    }
}

/// A batch in which nothing is refused.
pub fn plain(drafter: Drafter, rows: &[Vec<u64>], curve: &[f64]) -> Batch {
    let lengths: Vec<u32> = rows.iter().map(|row| row.len() as u32).collect();
    Batch {
        drafter,
        rates: rates(),
        gamma: curve.len() as u32 - 1,
        room: rows.len().max(curve.len()),
        chains: Chains::of_rows(rows),
        loaded: (0..=rows.len())
            .map(|m| (m as f64 * 4.5).to_bits())
            .collect(),
        lengths,
        curve: bits(curve),
    }
}

/// Three sequences of up to three drafts.
fn three(drafter: Drafter) -> Batch {
    let rows = [
        bits(&[0.875, 0.75, 0.5]),
        bits(&[0.5, 0.25, 0.125]),
        bits(&[0.9375, 0.9, 0.8]),
    ];
    plain(drafter, &rows, &[1.0, 1.125, 1.25, 1.5])
}

fn asked<'a>(batch: &'a Batch, questions: &'a [Asked]) -> impl Iterator<Item = WordCase> + 'a {
    questions.iter().map(|&asked| batch.case(asked))
}

/// Each special value at each place in turn, of every drafter.
pub fn specials(questions: &[Asked]) -> Vec<WordCase> {
    let mut cases = Vec::new();
    for drafter in drafters() {
        for &special in SPECIALS {
            for place in 0..9 {
                let mut batch = three(drafter);
                put_special(&mut batch, place, special);
                cases.extend(asked(&batch, questions));
            }
        }
    }
    cases
}

fn put_special(batch: &mut Batch, place: usize, special: u64) {
    match (place, &mut batch.drafter) {
        (0, _) => batch.chains.rows[0] = special,
        (1, _) => batch.chains.rows[8] = special,
        (2, _) => batch.curve[0] = special,
        (3, _) => batch.curve[2] = special,
        (4, _) => batch.curve[3] = special,
        (5, _) => batch.rates.peak = special,
        (6, _) => batch.rates.bw = special,
        (7, Drafter::Fraction { frac }) => *frac = special,
        (7, Drafter::Autoregressive { dense_params, .. }) => *dense_params = special,
        (7, Drafter::BlockParallel { params, .. }) => *params = special,
        (_, Drafter::Autoregressive { expert_params, .. }) if special & 1 == 0 => {
            *expert_params = special
        }
        (_, Drafter::Autoregressive { .. }) => batch.loaded[3] = special,
        _ => batch.rates.kv_delta = special,
    }
}

/// Gammas and lengths at and beside their limits.
pub fn limits(questions: &[Asked]) -> Vec<WordCase> {
    let mut cases = Vec::new();
    for drafter in drafters() {
        for gamma in [0, 1, 2, 63, 64, 65, u32::MAX] {
            let depth = gamma.min(64) as usize;
            let row = |s: f64| bits(&vec![s; depth]);
            let curve: Vec<f64> = (0..=depth).map(|g| 1.0 + g as f64 / 32.0).collect();
            let mut batch = plain(drafter, &[row(0.75), row(0.5)], &curve);
            batch.gamma = gamma;
            cases.extend(asked(&batch, questions));
            batch.lengths = vec![];
            cases.extend(asked(&batch, questions));
        }
        for length in [0, 1, 3, 4, 64, 65, u32::MAX] {
            let mut batch = three(drafter);
            batch.lengths[1] = length;
            cases.extend(asked(&batch, questions));
            batch.lengths = vec![length; 3];
            cases.extend(asked(&batch, questions));
        }
        for count in [0, 1_000_000, 1_000_001] {
            let mut batch = three(drafter);
            if let Drafter::Autoregressive { num_experts, .. } = &mut batch.drafter {
                *num_experts = count;
            }
            if let Drafter::BlockParallel { block, .. } = &mut batch.drafter {
                *block = count;
            }
            cases.extend(asked(&batch, questions));
        }
    }
    cases
}

/// Each room just enough, one slot short, one slot more and none.
pub fn rooms(questions: &[Asked]) -> Vec<WordCase> {
    let mut cases = Vec::new();
    for drafter in drafters() {
        for &asked in questions {
            let mut add = |change: &dyn Fn(&mut Batch)| {
                let mut batch = three(drafter);
                change(&mut batch);
                cases.push(batch.case(asked));
            };
            for slots in [0, 1, 3 * SLOTS - 1, 3 * SLOTS + 1] {
                add(&|batch| batch.chains.slots = slots);
            }
            for room in [0, 2, 3, 4, 5] {
                add(&|batch| batch.room = room);
            }
            for entries in [0, 3, 4, 5] {
                add(&|batch| batch.curve.resize(entries, u64::MAX));
                add(&|batch| batch.loaded.resize(entries, u64::MAX));
            }
            add(&|batch| {
                batch.chains.slots = 1;
                batch.curve[0] = MINUS_ZERO;
                batch.room = 4;
            });
            add(&|batch| {
                batch.loaded.clear();
                batch.curve[0] = MINUS_ZERO;
            });
        }
    }
    cases
}

/// Every pattern of holes in curves of the depths 1 to a deepest one, which is at most 4.
pub fn holes(questions: &[Asked], deepest: usize) -> Vec<WordCase> {
    let mut cases = Vec::new();
    for drafter in drafters() {
        for gamma in 1..=deepest {
            for pattern in 0..1 << (gamma + 1) {
                for likely in [0.5, 0.875] {
                    let chain = |s: f64| std::iter::successors(Some(s), |s| Some(s * likely));
                    let row = |s: f64| bits(&chain(s).take(gamma).collect::<Vec<f64>>());
                    let prices = [1.0, 1.125, 1.25, 1.5, 1.75];
                    let mut batch = plain(drafter, &[row(0.75), row(likely)], &prices[..=gamma]);
                    put_pattern(&mut batch.curve, pattern);
                    cases.extend(asked(&batch, questions));
                }
            }
        }
    }
    cases
}

/// Two sequences of two drafts, every choice of zero, minus zero, a half and one.
pub fn equals(questions: &[Asked]) -> Vec<WordCase> {
    let mut cases = Vec::new();
    for choice in 0..256usize {
        let slots = [0, 2, 4, 6].map(|at| [0, MINUS_ZERO, HALF, ONE][choice >> at & 3]);
        for drafter in drafters() {
            let rows = [slots[..2].to_vec(), slots[2..].to_vec()];
            let batch = plain(drafter, &rows, &[1.0, 1.0625, 1.125]);
            cases.extend(asked(&batch, questions));
        }
    }
    cases
}

/// Up to 1,024 sequences of 64 drafts, and one sequence more: few of them.
pub fn large(questions: &[Asked], dice: &mut Dice) -> Vec<WordCase> {
    let mut cases = Vec::new();
    for (drafter, n) in drafters().into_iter().zip([1000, 1024, 1024]) {
        let row = |dice: &mut Dice| {
            let mut s = 1.0;
            let next = |_| {
                s *= 1.0 - dice.below(64) as f64 / 256.0;
                f64::to_bits(s)
            };
            (0..SLOTS).map(next).collect::<Vec<u64>>()
        };
        let rows: Vec<u64> = (0..3).flat_map(|_| row(dice)).collect();
        let batch = |n: usize, asked| Batch {
            drafter,
            rates: rates(),
            gamma: 64,
            room: if asked == Asked::Expected { 66 } else { n },
            chains: Chains {
                slots: n * SLOTS,
                width: SLOTS,
                rows: rows.clone(),
            },
            lengths: (0..n).map(|k| (64 - k % 7) as u32).collect(),
            curve: (0..=64)
                .map(|g| (1.0 + f64::from(g) / 16.0).to_bits())
                .collect(),
            loaded: (0..=n).map(|m| (m as f64 / 8.0).to_bits()).collect(),
        };
        for &asked in questions {
            let suits = match asked {
                Asked::Ragged(_) => !drafter.is_block(),
                Asked::Block(_) => drafter.is_block(),
                _ => true,
            };
            if suits {
                cases.push(batch(n, asked).case(asked));
            }
        }
        cases.push(batch(MOST_SEQUENCES + 1, questions[0]).case(questions[0]));
    }
    cases
}
