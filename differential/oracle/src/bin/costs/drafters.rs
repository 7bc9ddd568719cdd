//! Cases of drafter costs: the kinds, special values at every place, and random ones.
use crate::unchanged;
use numbers::dice::Dice;
use numbers::word_case::{listed, WordCase};
use oracle::drafter::{Drafter, Lent, Rates, MOST_SEQUENCES};
use oracle::drafter_values::{drafter, float_up_to, rate, with_constant_loaded};
use oracle::drafter_values::{COUNTS, ONE, SPECIALS};
use oracle::plans::prices::is_deep;

/// What is asked of a drafter.
#[derive(Clone, Debug)]
pub enum Asked {
    Refusal,
    RatesRefusal,
    IsBlock,
    Seconds { gamma: u32, batch: u32 },
    PassSeconds { batch: u32 },
    RaggedSeconds { widths: Vec<u32> },
}

/// All that a case of a drafter is made of.
#[derive(Clone, Debug)]
pub struct Question {
    pub drafter: Drafter,
    pub rates: Rates,
    pub verify_c: u64,
    pub loaded: Vec<u64>,
    pub asked: Asked,
}

impl Question {
    pub fn case(&self) -> WordCase {
        match &self.asked {
            Asked::Refusal => {
                let refusal = self.drafter.refusal();
                WordCase::new(b'v', self.drafter.words(), vec![refusal.into()])
            }
            Asked::RatesRefusal => {
                let refusal = self.rates.refusal();
                WordCase::new(b'w', self.rates.words(), vec![refusal.into()])
            }
            Asked::IsBlock => {
                let is_block = self.drafter.is_block();
                assert_eq!(is_block, unchanged::is_block(self.drafter), "{self:x?}");
                WordCase::new(b'b', self.drafter.words(), vec![0, is_block.into()])
            }
            _ => self.cost(),
        }
    }

    fn cost(&self) -> WordCase {
        let (drafter, rates) = (self.drafter, self.rates);
        let lent = Lent {
            verify_c: self.verify_c,
            loaded: &self.loaded,
        };
        let without_verify = Lent {
            verify_c: 0,
            ..lent
        };
        let none = &[][..];
        let (letter, sizes, widths, answer) = match &self.asked {
            Asked::Seconds { gamma, batch } => {
                let answer = drafter.seconds(*gamma, *batch, rates, lent);
                (b'd', [*gamma, *batch], none, answer)
            }
            Asked::PassSeconds { batch } => {
                let answer = drafter.pass_seconds(*batch, rates, without_verify);
                (b'q', [0, *batch], none, answer)
            }
            Asked::RaggedSeconds { widths } => {
                let answer = drafter.ragged_seconds(widths, rates, lent);
                (b'g', [0, 0], &widths[..], answer)
            }
            _ => unreachable!("a question without a cost"),
        };
        if let Ok(bits) = answer {
            assert_eq!(bits, unchanged::cost(self), "{self:x?}");
        }
        let input = [
            drafter.words(),
            sizes.map(u64::from).to_vec(),
            rates.words(),
            vec![self.verify_c],
            listed(widths.iter().map(|&width| width.into())),
            listed(self.loaded.iter().copied()),
        ];
        let answer = answer.map_or_else(|number| [number.into(), 0], |bits| [0, bits]);
        let deepest = widths.iter().fold(sizes[0], |most, &width| most.max(width));
        WordCase::new(letter, input.concat(), answer.to_vec()).with_traits(&[
            ("deep", is_deep(deepest)),
            ("uneven", widths.iter().any(|&width| width != widths[0])),
        ])
    }
}

/// A question that nothing refuses.
fn plain(drafter: Drafter, asked: Asked) -> Question {
    let rates = Rates {
        peak: 1e15f64.to_bits(),
        bw: 3e12f64.to_bits(),
        kv_delta: 0,
    };
    let loaded = [0.0f64, 7.5, 14.25, 20.0, 25.5].map(f64::to_bits);
    Question {
        drafter,
        rates,
        verify_c: 0.03125f64.to_bits(),
        loaded: loaded.to_vec(),
        asked,
    }
}

fn plain_drafters() -> [Drafter; 3] {
    [
        Drafter::Fraction {
            frac: 0.1f64.to_bits(),
        },
        Drafter::Autoregressive {
            dense_params: 1.1e9f64.to_bits(),
            expert_params: 4.4e7f64.to_bits(),
            num_experts: 256,
            experts_per_tok: 8,
            shared_experts: 1,
        },
        Drafter::BlockParallel {
            params: 2.3e9f64.to_bits(),
            block: 16,
        },
    ]
}

/// Every question of every kind, with each special value in each place in turn.
pub fn specials() -> Vec<Question> {
    let mut questions = Vec::new();
    for drafter in plain_drafters() {
        for asked in every_question() {
            let question = plain(drafter, asked);
            for &special in SPECIALS {
                for place in 0..6 {
                    questions.push(with_float(question.clone(), place, special));
                }
            }
            for &count in COUNTS {
                for place in 0..3 {
                    questions.push(with_count(question.clone(), place, count));
                }
            }
        }
    }
    questions
}

fn every_question() -> Vec<Asked> {
    vec![
        Asked::Refusal,
        Asked::RatesRefusal,
        Asked::IsBlock,
        Asked::Seconds { gamma: 3, batch: 4 },
        Asked::Seconds { gamma: 0, batch: 4 },
        Asked::PassSeconds { batch: 4 },
        Asked::PassSeconds { batch: 0 },
        Asked::RaggedSeconds {
            widths: vec![2, 0, 5, 2],
        },
        Asked::RaggedSeconds { widths: vec![0, 0] },
    ]
}

/// Gammas, batches, widths and loaded lists at and beside their limits.
pub fn limits() -> Vec<Question> {
    let mut questions = Vec::new();
    for drafter in plain_drafters() {
        for gamma in [0, 1, 63, 64, 65, u32::MAX] {
            for batch in [0, 1, 2, 4, 5, 1024, 1025, u32::MAX] {
                questions.push(plain(drafter, Asked::Seconds { gamma, batch }));
            }
        }
        for batch in [0, 1, 4, 5, 1024, 1025, u32::MAX] {
            questions.push(plain(drafter, Asked::PassSeconds { batch }));
        }
        for widths in [
            vec![],
            vec![0],
            vec![64],
            vec![65],
            vec![1, 64, 65],
            vec![1; 4],
            vec![2; 5],
        ] {
            questions.push(plain(drafter, Asked::RaggedSeconds { widths }));
        }
        for asked in every_question() {
            for length in 0..6 {
                let mut question = plain(drafter, asked.clone());
                question.loaded.truncate(length);
                questions.push(question);
            }
        }
    }
    questions
}

/// With 1,024 sequences and one more, few of them.
pub fn large(dice: &mut Dice) -> Vec<Question> {
    let mut questions = Vec::new();
    for drafter in plain_drafters() {
        for n in [MOST_SEQUENCES, MOST_SEQUENCES + 1] {
            let widths = (0..n).map(|_| dice.below(65) as u32).collect();
            let mut ragged = plain(drafter, Asked::RaggedSeconds { widths });
            ragged.loaded = (0..=n).map(|at| (at as f64 / 4.0).to_bits()).collect();
            let mut even = ragged.clone();
            even.asked = Asked::Seconds {
                gamma: 64,
                batch: n as u32,
            };
            questions.extend([ragged, even]);
        }
    }
    questions
}

fn with_float(mut question: Question, place: usize, bits: u64) -> Question {
    match (place, &mut question.drafter) {
        (0, Drafter::Fraction { frac }) => *frac = bits,
        (0, Drafter::Autoregressive { dense_params, .. }) => *dense_params = bits,
        (0, Drafter::BlockParallel { params, .. }) => *params = bits,
        (1, Drafter::Autoregressive { expert_params, .. }) => *expert_params = bits,
        (1, _) => question.rates.kv_delta = bits,
        (2, _) => question.rates.peak = bits,
        (3, _) => question.rates.bw = bits,
        (4, _) => question.verify_c = bits,
        _ => {
            if let Some(last) = question.loaded.last_mut() {
                *last = bits;
            }
        }
    }
    question
}

fn with_count(mut question: Question, place: usize, count: u32) -> Question {
    if let Drafter::Autoregressive {
        num_experts,
        experts_per_tok,
        shared_experts,
        ..
    } = &mut question.drafter
    {
        match place {
            0 => *num_experts = count,
            1 => *experts_per_tok = count,
            _ => *shared_experts = count,
        }
    }
    if let Drafter::BlockParallel { block, .. } = &mut question.drafter {
        *block = count;
    }
    with_constant_loaded(question.drafter, &mut question.loaded);
    question
}

/// Any shape, mostly a small one, at times at or past a limit.
pub fn random(dice: &mut Dice) -> Question {
    let n = match dice.below(256) {
        0 if dice.once_in(4) => MOST_SEQUENCES + dice.between(0, 1),
        0 => dice.between(0, MOST_SEQUENCES),
        1 => dice.between(0, 100),
        2..=15 => dice.between(0, 20),
        _ => dice.between(0, 5),
    };
    let mut question = Question {
        drafter: drafter(dice),
        rates: Rates {
            peak: rate(dice),
            bw: rate(dice),
            kv_delta: dice.pick(SPECIALS),
        },
        verify_c: float_up_to(9, dice),
        loaded: (0..n + dice.between(0, 2))
            .map(|_| float_up_to(6, dice))
            .collect(),
        asked: asked(n, dice),
    };
    if !dice.once_in(8) {
        question.loaded.resize(n + 1, ONE);
    }
    if dice.once_in(4) {
        let place = dice.between(0, 5);
        question = with_float(question, place, dice.pick(SPECIALS));
    }
    if dice.once_in(8) {
        let place = dice.between(0, 2);
        question = with_count(question, place, dice.pick(COUNTS));
    }
    with_constant_loaded(question.drafter, &mut question.loaded);
    question
}

fn asked(n: usize, dice: &mut Dice) -> Asked {
    let batch = match dice.below(24) {
        0 => dice.pick(&[0, 1024, 1025, u32::MAX]),
        _ => n as u32,
    };
    match dice.below(32) {
        0 => Asked::Refusal,
        1 => Asked::RatesRefusal,
        2 => Asked::IsBlock,
        3..=7 => Asked::PassSeconds { batch },
        8..=18 => Asked::RaggedSeconds {
            widths: widths(n, dice),
        },
        _ => Asked::Seconds {
            gamma: gamma(dice),
            batch,
        },
    }
}

fn gamma(dice: &mut Dice) -> u32 {
    match dice.below(16) {
        0 => dice.pick(&[0, 63, 64, 65, u32::MAX]),
        1..=6 => dice.between(0, 64) as u32,
        _ => dice.between(0, 8) as u32,
    }
}

fn widths(n: usize, dice: &mut Dice) -> Vec<u32> {
    let most = dice.pick(&[0, 1, 3, 8, 64]);
    let mut widths: Vec<u32> = (0..n).map(|_| dice.between(0, most) as u32).collect();
    if n > 0 && dice.once_in(16) {
        let at = dice.between(0, n - 1);
        widths[at] = dice.pick(&[64, 65, u32::MAX]);
    }
    widths
}
