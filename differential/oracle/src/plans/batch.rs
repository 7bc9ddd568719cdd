//! Cases of a batch of sequences: its expected acceptance, its best depth and the two gates.
use crate::drafter::{Drafter, Others, Rates, MOST_GAMMA, MOST_SEQUENCES};
use crate::plans::chains::{Chains, SLOTS};
use crate::plans::gate::{Chosen, Gate};
use crate::plans::goodput::{expected, Costs};
use crate::plans::prices::{is_deep, INFINITY, MINUS_ZERO};
use crate::plans::unchanged;
use crate::plans::verify_price::Mode;
use crate::range::in_range_or_infinite;
use crate::unchanged::floats;
use numbers::word_case::{bits_of, listed, WordCase};

/// What a slot of widths holds before the call.
const WHOLE_BEFORE: u64 = 0xDEAD_BEEF;

/// The bits of what a slot of values holds before the call: 42.0.
pub const FLOAT_BEFORE: u64 = 0x4045_0000_0000_0000;

/// What is asked of a batch.
#[derive(Clone, Copy, Debug, PartialEq, Eq)]
pub enum Asked {
    Expected,
    Depth,
    Ragged(Mode),
    Block(Mode),
}

impl Asked {
    fn is_bridged(self) -> bool {
        matches!(
            self,
            Asked::Ragged(Mode::Bridged) | Asked::Block(Mode::Bridged)
        )
    }
}

/// All that a batch is asked with, floats by their bits.
#[derive(Clone, Debug)]
pub struct Batch {
    pub drafter: Drafter,
    pub rates: Rates,
    pub gamma: u32,
    /// The slots that are lent for what is written: values or widths.
    pub room: usize,
    pub chains: Chains,
    pub lengths: Vec<u32>,
    pub curve: Vec<u64>,
    pub loaded: Vec<u64>,
}

impl Batch {
    pub fn n(&self) -> usize {
        self.lengths.len()
    }

    pub fn case(&self, asked: Asked) -> WordCase {
        let case = match asked {
            Asked::Expected => self.expected(),
            Asked::Depth => self.depth(),
            Asked::Ragged(mode) => {
                self.gate(b'r', mode, |gate| gate.ragged(), unchanged::Asked::ragged)
            }
            Asked::Block(mode) => {
                self.gate(b'v', mode, |gate| gate.block(), unchanged::Asked::block)
            }
        };
        case.with_traits(&[
            ("deep", is_deep(self.gamma)),
            (
                "uneven",
                self.lengths.iter().any(|&length| length != self.lengths[0]),
            ),
            ("with holes", self.prices().contains(&INFINITY)),
            ("minus zero", self.chains.rows.contains(&MINUS_ZERO)),
            ("bridged", asked.is_bridged()),
        ])
    }

    /// The words, of a gate with its mode behind gamma.
    fn words(&self, mode: Option<Mode>) -> Vec<u64> {
        let mode = mode.map(|mode| mode as u64);
        [
            &self.drafter.words()[..],
            &self.rates.words(),
            &[self.gamma.into()],
            mode.as_slice(),
            &[self.room as u64],
            &self.chains.words(),
            &listed(self.lengths.iter().map(|&length| length.into())),
            &listed(self.curve.iter().copied()),
            &listed(self.loaded.iter().copied()),
        ]
        .concat()
    }

    /// Whether the chains are there.
    fn are_slots(&self) -> bool {
        self.chains.slots >= self.n() * SLOTS
    }

    fn are_survivals(&self) -> bool {
        self.chains.are_in_range(&self.lengths, self.gamma)
    }

    /// The prices of the depths 0 to gamma, or as many as there are.
    fn prices(&self) -> &[u64] {
        let count = self.curve.len().min(self.gamma as usize + 1);
        &self.curve[..count]
    }

    fn costs(&self) -> Costs<'_> {
        Costs {
            drafter: self.drafter,
            rates: self.rates,
            n: self.n() as u32,
            loaded: &self.loaded,
        }
    }

    fn unchanged(&self) -> unchanged::Asked {
        unchanged::Asked::new(self.costs(), self.gamma, floats(self.prices()))
    }

    /// The bits of the expected acceptance at the depths 0 to gamma; 11, then 16, then 15: the drafter,
    /// the rates and the curve are not used.
    pub fn expected_values(&self) -> Result<Vec<u64>, u8> {
        if self.gamma > MOST_GAMMA || self.n() > MOST_SEQUENCES {
            return Err(11);
        }
        if !self.are_slots() || self.room <= self.gamma as usize {
            return Err(16);
        }
        if !self.are_survivals() {
            return Err(15);
        }
        let values = expected(&self.chains.floats(&self.lengths), self.gamma);
        Ok(values.into_iter().map(bits_of).collect())
    }

    fn expected(&self) -> WordCase {
        let values = self.expected_values();
        let mut answer = vec![values.as_ref().map_or_else(|&number| number.into(), |_| 0)];
        if let Ok(values) = values {
            let chains = self.chains.floats(&self.lengths);
            let rust = unchanged::expected(&chains, self.gamma);
            assert_eq!(values, rust, "{self:x?}");
            answer.extend(values);
        }
        answer.resize(1 + self.room, FLOAT_BEFORE);
        WordCase::new(b'e', self.words(None), answer)
    }

    /// 12, then 11, then 16, then 15; `are_widths`: whether there is room for what is written.
    fn judged(&self, are_widths: bool) -> Result<(), u8> {
        let gamma = self.gamma as usize;
        let is_price = |&price: &u64| in_range_or_infinite(price, 0.0, 1e9);
        let others = Others {
            are_sizes: self.gamma <= MOST_GAMMA,
            are_rooms: are_widths && self.are_slots() && gamma < self.curve.len(),
            are_values: self.are_survivals() && self.prices().iter().all(is_price),
        };
        self.drafter
            .judged(self.n(), self.rates, &self.loaded, others)
    }

    fn best(&self, chains: &[Vec<f64>]) -> u32 {
        let prices = floats(self.prices());
        self.costs()
            .best_depth(&expected(chains, self.gamma), &prices)
    }

    /// The best depth, or the refusal's number.
    pub fn best_depth(&self) -> Result<u32, u8> {
        self.judged(true)?;
        Ok(self.best(&self.chains.floats(&self.lengths)))
    }

    fn depth(&self) -> WordCase {
        let answer = self.best_depth().inspect(|&depth| {
            let chains = self.chains.floats(&self.lengths);
            assert_eq!(depth, self.unchanged().depth(&chains), "{self:x?}");
        });
        let answer = answer.map_or_else(|number| [number.into(), 0], |depth| [0, depth.into()]);
        WordCase::new(b'a', self.words(None), answer.to_vec())
    }

    /// What a gate chooses, or the refusal's number.
    pub fn chosen(&self, mode: Mode, choose: fn(&Gate) -> Chosen) -> Result<Chosen, u8> {
        self.judged(self.n() <= self.room)?;
        let chains = self.chains.floats(&self.lengths);
        Ok(choose(&Gate {
            chains: &chains,
            prices: &floats(self.prices()),
            mode,
            depth: self.best(&chains),
            costs: self.costs(),
        }))
    }

    /// Whether a gate meets the same prices in both modes: there is no hole, and the mean width stays
    /// below gamma, since the best depth or a chain does.
    fn is_alike_in_both_modes(&self, chains: &[Vec<f64>]) -> bool {
        let is_shorter = |&length: &u32| length < self.gamma;
        let is_below = self.best(chains) < self.gamma || self.lengths.iter().any(is_shorter);
        is_below && !self.prices().contains(&INFINITY)
    }

    /// By default what is chosen is what the Rust chooses. Bridged there is no Rust but where the modes
    /// are alike.
    fn gate(
        &self,
        letter: u8,
        mode: Mode,
        ours: fn(&Gate) -> Chosen,
        rust: fn(&unchanged::Asked, &[Vec<f64>]) -> Chosen,
    ) -> WordCase {
        let chosen = self.chosen(mode, ours).inspect(|chosen| {
            let chains = self.chains.floats(&self.lengths);
            if mode == Mode::Default || self.is_alike_in_both_modes(&chains) {
                assert_eq!(*chosen, rust(&self.unchanged(), &chains), "{self:x?}");
            }
        });
        let mut answer = match chosen {
            Ok(chosen) => {
                let widths = chosen.widths.iter().map(|&width| width.into());
                [0, chosen.weighed].into_iter().chain(widths).collect()
            }
            Err(number) => vec![number.into(), 0],
        };
        answer.resize(2 + self.room, WHOLE_BEFORE);
        WordCase::new(letter, self.words(Some(mode)), answer)
    }
}
