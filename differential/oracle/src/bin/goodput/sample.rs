//! The recorded sample: the same cases on every machine, each once.
use crate::random;
use numbers::dice::Dice;
use numbers::word_case::{dealt, WordCase};
use oracle::drafter::Drafter;
use oracle::drafter_values::{HALF, ONE, SPECIALS};
use oracle::model::{Kind, Model, KINDS};
use oracle::plans::batch::Asked;
use oracle::plans::batches::Shape;
use oracle::plans::made::{self, bits, drafters, rates, sparse};
use oracle::plans::priced::{self, Priced};
use oracle::plans::prices::MINUS_ZERO;
use oracle::plans::{expectation, signal};

const SEED: u64 = 1;

/// The sentence that says the space.
pub fn space() -> String {
    format!(
        "space: signals, curves, models, banks' curves, batches, expected values and costs with special \
         values at every place, at and beside every limit, in room just enough and short; curves with \
         every pattern of holes up to depth 3; up to 1,025 sequences and depth 64; random small ones; \
         seed {SEED}"
    )
}

pub fn recorded() -> Vec<WordCase> {
    let dice = &mut Dice::new(SEED);
    let questions = &[Asked::Expected, Asked::Depth];
    dealt(vec![
        examples(),
        sparse(made::specials(questions), 5),
        sparse(made::limits(questions), 3),
        sparse(made::rooms(questions), 2),
        sparse(made::holes(questions, 3), 3),
        made::large(questions, dice),
        sparse(priced_specials(), 3),
        signals(),
        curves(),
        models(),
        banks(),
        (0..1000)
            .map(|_| random::case(Shape::small, dice))
            .collect(),
    ])
}

/// The rules' own examples of the best depth.
fn examples() -> Vec<WordCase> {
    let best = |costs: [f64; 3]| {
        let asked = priced::Asked::Best {
            expected: bits(&[0.0, 2.0, 3.0]),
            curve: bits(&costs),
        };
        let priced = Priced {
            drafter: Drafter::Fraction { frac: 0 },
            rates: rates(),
            gamma: 2,
            n: 2,
            loaded: vec![],
            asked,
        };
        priced.case()
    };
    vec![
        best([1.0, 2.0, 2.5]),
        best([1.0, 2.0, 2.0]),
        best([f64::INFINITY; 3]),
    ]
}

/// Special values in every place of a cost and of expected values.
fn priced_specials() -> Vec<WordCase> {
    let mut cases = Vec::new();
    for drafter in drafters() {
        let ask = |asked| Priced {
            drafter,
            rates: rates(),
            gamma: 2,
            n: 3,
            loaded: bits(&[0.0, 5.0, 9.0, 12.5]),
            asked,
        };
        let total = |verify| ask(priced::Asked::Total { verify });
        let best = |expected: [u64; 3], curve: [u64; 3]| {
            let [expected, curve] = [expected, curve].map(Vec::from);
            ask(priced::Asked::Best { expected, curve })
        };
        let most = 65536f64.to_bits();
        for &special in [SPECIALS, &[most - 1, most, most + 1]].concat().iter() {
            cases.push(total(special).case());
            for at in 0..3 {
                let mut expected = [0, ONE, 2f64.to_bits()];
                expected[at] = special;
                cases.push(best(expected, [ONE; 3]).case());
                let mut curve = [ONE; 3];
                curve[at] = special;
                cases.push(best([0, ONE, ONE], curve).case());
            }
        }
        for priced in [total(ONE), best([0, ONE, ONE], [ONE; 3])] {
            cases.extend(priced_limits(&priced));
        }
    }
    cases
}

fn priced_limits(priced: &Priced) -> Vec<WordCase> {
    let mut cases = Vec::new();
    let mut add = |change: &dyn Fn(&mut Priced)| {
        let mut copy = priced.clone();
        change(&mut copy);
        cases.push(copy.case());
    };
    for gamma in [0, 1, 2, 3, 64, 65, u32::MAX] {
        add(&|copy| copy.gamma = gamma);
    }
    for n in [0, 1, 2, 3, 4, 1024, 1025, u32::MAX] {
        add(&|copy| copy.n = n);
    }
    for entries in 0..6 {
        add(&|copy| copy.loaded.resize(entries, u64::MAX));
    }
    for &special in SPECIALS {
        add(&|copy| copy.rates.peak = special);
        add(&|copy| copy.rates.bw = special);
        add(&|copy| copy.loaded[3] = special);
        add(&|copy| copy.drafter = Drafter::Fraction { frac: special });
    }
    cases
}

fn signals() -> Vec<WordCase> {
    let mut cases = Vec::new();
    for &special in SPECIALS {
        for at in 0..3 {
            let mut signal = [HALF, ONE - 1, 0.75f64.to_bits()];
            signal[at] = special;
            cases.push(signal::survival_chain(&signal, 3));
            cases.push(signal::survival_chain(&signal, at as u64));
        }
    }
    let long: Vec<u64> = (0..64)
        .map(|d| (1.0 - d as f64 / 4096.0).to_bits())
        .collect();
    for length in [0, 1, 2, 63, 64, 65, 66, 1 << 32, u64::MAX] {
        cases.push(signal::survival_chain(&long, length));
    }
    cases
}

fn curves() -> Vec<WordCase> {
    let mut cases = Vec::new();
    let roofline = bits(&[1.0, 2.0, f64::INFINITY, -0.0]);
    let measured = bits(&[0.5, f64::INFINITY, 0.25, 7.0]);
    for entries in 0..=4 {
        for gamma in [0, 1, 2, 3, 4, 64, u64::MAX] {
            for has_table in [false, true] {
                let rest = &measured[entries..];
                cases.push(signal::curve(&roofline[..entries], rest, has_table, gamma));
            }
        }
    }
    cases
}

fn models() -> Vec<WordCase> {
    let mut cases = Vec::new();
    for kind in KINDS {
        let of = |alpha, gamma, positions: &[u64]| Model {
            kind,
            alpha,
            gamma,
            positions: positions.to_vec(),
            draws: vec![],
        };
        for &special in SPECIALS {
            cases.push(expectation::of_model(&of(special, 2, &[HALF]), 3, 3));
            cases.push(expectation::of_model(&of(HALF, 2, &[ONE, special]), 3, 4));
        }
        for gamma in [0, 1, 2, 63, 64, 65, u32::MAX] {
            for n in [0, 1, 1024, 1025, u32::MAX] {
                let model = of(0.9f64.to_bits(), gamma, &[HALF; 3]);
                let enough = gamma.min(65) as usize + 1;
                cases.push(expectation::of_model(&model, n, enough));
                cases.push(expectation::of_model(&model, n, enough - 1));
            }
        }
        for positions in [0, 1, 63, 64, 65] {
            let model = of(ONE, 64, &vec![ONE - 1; positions]);
            cases.push(expectation::of_model(&model, 7, 66));
        }
    }
    let minus_zero = Model {
        kind: Kind::Constant,
        alpha: MINUS_ZERO,
        gamma: 65,
        positions: vec![],
        draws: vec![],
    };
    cases.push(expectation::of_model(&minus_zero, 1025, 0));
    cases
}

fn banks() -> Vec<WordCase> {
    let mut cases = Vec::new();
    let sixty_four = 64f64.to_bits();
    for &special in [SPECIALS, &[sixty_four - 1, sixty_four, sixty_four + 1]]
        .concat()
        .iter()
    {
        for at in 0..4 {
            let mut curve = [0, HALF, ONE, ONE + 1];
            curve[at] = special;
            cases.push(expectation::of_bank(&curve, 2, 3, 5, 4));
            cases.push(expectation::of_bank(&curve, 5, 3, 5, 4));
        }
    }
    let curve: Vec<u64> = (0..=64).map(|g| f64::to_bits(f64::from(g) / 3.0)).collect();
    for depth in [0, 1, 2, 63, 64, 65, u32::MAX] {
        for gamma in [0, 1, 2, 63, 64, 65, u32::MAX] {
            let used = depth.min(gamma).min(64) as usize + 1;
            let room = gamma.min(65) as usize + 1;
            for (entries, room) in [(used, room), (used - 1, room), (used, room - 1)] {
                cases.push(expectation::of_bank(
                    &curve[..entries],
                    depth,
                    gamma,
                    9,
                    room,
                ));
            }
        }
    }
    for n in [0, 1, 1024, 1025, u32::MAX] {
        cases.push(expectation::of_bank(&curve, 3, 4, n, 5));
    }
    cases
}

#[cfg(test)]
mod tests {
    use super::*;
    use numbers::sampling::{assert_steady, kinds_at_the_start, refusals_met};

    #[test]
    fn the_sample_is_the_same_each_time_and_of_the_size_wanted() {
        assert_steady(recorded, 2000..=6000, 3_000_000);
    }

    #[test]
    fn every_refusal_is_met() {
        let met = refusals_met(&recorded());
        let of = |kind: u8| met[&kind].clone();
        for kind in *b"tda" {
            assert_eq!(of(kind), [0, 11, 12, 15, 16], "{}", kind as char);
        }
        for kind in *b"eb" {
            assert_eq!(of(kind), [0, 11, 15, 16], "{}", kind as char);
        }
        assert_eq!(of(b'm'), [0, 11, 12, 16]);
        assert_eq!((of(b's'), of(b'c')), (vec![0, 11, 15], vec![0]));
    }

    #[test]
    fn a_beginning_holds_every_kind() {
        assert_eq!(kinds_at_the_start(&recorded()), 8);
    }
}
