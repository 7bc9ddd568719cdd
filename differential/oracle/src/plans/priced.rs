//! Cases of prices without a batch: the total cost of a depth, and the best depth of expected values
//! that are lent.
use crate::drafter::{Drafter, Others, Rates, MOST_GAMMA};
use crate::plans::goodput::Costs;
use crate::plans::prices::{is_deep, INFINITY};
use crate::plans::unchanged;
use crate::range::{in_range, in_range_or_infinite};
use crate::unchanged::floats;
use numbers::word_case::{bits_of, listed, WordCase};

/// All that such a case is made of, floats by their bits.
#[derive(Clone, Debug)]
pub struct Priced {
    pub drafter: Drafter,
    pub rates: Rates,
    /// Of a total cost the depth that is priced.
    pub gamma: u32,
    pub n: u32,
    pub loaded: Vec<u64>,
    pub asked: Asked,
}

#[derive(Clone, Debug)]
pub enum Asked {
    Total { verify: u64 },
    Best { expected: Vec<u64>, curve: Vec<u64> },
}

impl Priced {
    pub fn case(&self) -> WordCase {
        let none = &[][..];
        let (case, has_holes) = match &self.asked {
            Asked::Total { verify } => {
                let answer = self.total(*verify);
                let words = self.words(*verify, none, none);
                (
                    WordCase::new(b't', words, answer.to_vec()),
                    *verify == INFINITY,
                )
            }
            Asked::Best { expected, curve } => {
                let answer = self.best(expected, curve);
                let words = self.words(0, expected, curve);
                let has_holes = curve
                    .iter()
                    .take(self.gamma as usize + 1)
                    .any(|&price| price == INFINITY);
                (WordCase::new(b'd', words, answer.to_vec()), has_holes)
            }
        };
        case.with_traits(&[("deep", is_deep(self.gamma)), ("with holes", has_holes)])
    }

    fn words(&self, verify: u64, expected: &[u64], curve: &[u64]) -> Vec<u64> {
        let numbers = [self.gamma.into(), self.n.into(), verify];
        [
            &self.drafter.words()[..],
            &self.rates.words(),
            &numbers,
            &listed(expected.iter().copied()),
            &listed(curve.iter().copied()),
            &listed(self.loaded.iter().copied()),
        ]
        .concat()
    }

    fn costs(&self) -> Costs<'_> {
        Costs {
            drafter: self.drafter,
            rates: self.rates,
            n: self.n,
            loaded: &self.loaded,
        }
    }

    fn judged(&self, are_rooms: bool, are_values: bool) -> Result<(), u8> {
        let others = Others {
            are_sizes: self.gamma <= MOST_GAMMA,
            are_rooms,
            are_values,
        };
        self.drafter
            .judged(self.n as usize, self.rates, &self.loaded, others)
    }

    /// The bits of the seconds, or the refusal's number.
    pub fn total_seconds(&self, verify: u64) -> Result<u64, u8> {
        self.judged(true, is_price(verify))?;
        Ok(bits_of(
            self.costs().total(self.gamma, f64::from_bits(verify)),
        ))
    }

    /// The refusal, and the bits of the seconds.
    fn total(&self, verify: u64) -> [u64; 2] {
        let seconds = self.total_seconds(verify).inspect(|&seconds| {
            let prices = vec![f64::from_bits(verify); self.gamma as usize + 1];
            let rust = unchanged::Asked::new(self.costs(), self.gamma, prices);
            assert_eq!(seconds, bits_of(rust.total_cost(self.gamma)), "{self:x?}");
        });
        seconds.map_or_else(|number| [number.into(), 0], |seconds| [0, seconds])
    }

    /// The best depth, or the refusal's number.
    pub fn best_depth(&self, expected: &[u64], curve: &[u64]) -> Result<u32, u8> {
        let count = self.gamma as usize + 1;
        let are_rooms = count <= expected.len() && count <= curve.len();
        let is_expected = |&e: &u64| in_range(e, 0.0, 65536.0);
        let are_values = expected.iter().take(count).all(is_expected)
            && curve.iter().take(count).all(|&price| is_price(price));
        self.judged(are_rooms, are_values)?;
        let [expected, prices] = [expected, curve].map(|list| floats(&list[..count]));
        Ok(self.costs().best_depth(&expected, &prices))
    }

    /// The refusal, and the depth.
    fn best(&self, expected: &[u64], curve: &[u64]) -> [u64; 2] {
        let depth = self.best_depth(expected, curve).inspect(|&depth| {
            let count = self.gamma as usize + 1;
            let [expected, prices] = [expected, curve].map(|list| floats(&list[..count]));
            let rust = unchanged::Asked::new(self.costs(), self.gamma, prices);
            assert_eq!(depth, rust.best_depth(&expected), "{self:x?}");
        });
        depth.map_or_else(|number| [number.into(), 0], |depth| [0, depth.into()])
    }
}

fn is_price(bits: u64) -> bool {
    in_range_or_infinite(bits, 0.0, 1e9)
}
