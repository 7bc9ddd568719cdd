//! What becomes of a width while its target, the candidates and the settings stay as they are, asked
//! with anything.
use crate::readings::walks::walked;
use oracle::costs::lent_table::LentTable;
use oracle::costs::switching::Switch;
use oracle::range::{in_range_or_infinite, is_finite_and_clear};

const MOST_DEPTH: u32 = 64;
const MOST_WALKS: usize = 64;

/// Where the prices come from. Floats by their bits.
pub enum Prices {
    Roofline(Vec<u64>),
    Table(LentTable),
}

pub struct Asked {
    pub gamma: u32,
    /// The depth of the bank, where the acceptance is a trace.
    pub bank: Option<u32>,
    pub switch: Switch,
    pub prices: Prices,
    pub width: u32,
    pub target: u32,
    /// How many widths there is room for.
    pub room: usize,
}

#[derive(Debug, PartialEq, Eq)]
pub enum Settling {
    /// The widths after each walk, and the rounds that these take.
    Within(u64, Vec<u32>),
    AtOnce,
    /// Where it stays.
    NoStep(u32),
    NoCandidate(u32),
}

impl Prices {
    /// 11, 16 or 15, where the prices of the depths up to the deepest are used; else 0.
    fn refusal(&self, deepest: u32) -> u64 {
        let used = deepest as usize + 1;
        let is_price = |&price: &u64| in_range_or_infinite(price, 0.0, 1e9);
        match self {
            Prices::Table(table) => table.judged().err().unwrap_or(0).into(),
            Prices::Roofline(prices) if prices.len() < used => 16,
            Prices::Roofline(prices) if !prices[..used].iter().all(is_price) => 15,
            Prices::Roofline(_) => 0,
        }
    }

    /// Whether a depth has a finite price.
    fn has(&self, depth: u32) -> bool {
        match self {
            Prices::Roofline(prices) => is_finite_and_clear(prices[depth as usize]),
            Prices::Table(table) => table.depths[..table.rows as usize].contains(&depth),
        }
    }
}

impl Asked {
    /// The depth that plans may draft to.
    fn deepest(&self) -> u32 {
        self.bank.map_or(self.gamma, |depth| self.gamma.min(depth))
    }

    /// The first of 12, 11, 16 and 15; else 0.
    fn refusal(&self) -> u64 {
        let has_bank = self.bank.is_none_or(|depth| (1..=64).contains(&depth));
        let prices = self.prices.refusal(self.deepest());
        if self.switch.refusal() > 0 {
            12
        } else if self.gamma > MOST_DEPTH || !has_bank || prices == 11 {
            11
        } else if self.room < MOST_WALKS || prices == 16 {
            16
        } else if self.width > MOST_DEPTH || prices == 15 {
            15
        } else {
            0
        }
    }

    /// The widths after each walk, at least one, until the target is there.
    fn way(&self, candidates: &[u32]) -> Vec<u32> {
        let walk = |width| walked(candidates, width, self.target, self.switch.max_step);
        let mut widths = vec![walk(self.width)];
        while widths[widths.len() - 1] != self.target {
            assert!(widths.len() < MOST_WALKS, "a way that does not end");
            widths.push(walk(widths[widths.len() - 1]));
        }
        widths
    }

    fn among(&self, candidates: &[u32]) -> Settling {
        let switch = self.switch;
        let next = walked(candidates, self.width, self.target, switch.max_step);
        if switch.is_unconstrained() {
            Settling::AtOnce
        } else if !candidates.contains(&self.target) {
            Settling::NoCandidate(next)
        } else if switch.max_step == Some(0) {
            Settling::NoStep(next)
        } else {
            let widths = self.way(candidates);
            let pause = u64::from(switch.cooldown_rounds).max(1);
            Settling::Within(widths.len() as u64 * pause, widths)
        }
    }

    /// What becomes of the width, or the refusal's number.
    pub fn settled(&self) -> Result<Settling, u64> {
        match self.refusal() {
            0 => {
                let depths = 0..=self.deepest();
                let candidates: Vec<u32> = depths.filter(|&depth| self.prices.has(depth)).collect();
                Ok(self.among(&candidates))
            }
            number => Err(number),
        }
    }
}

#[cfg(test)]
mod tests {
    use super::*;
    use oracle::costs::switching::{decided, Record};

    const HOLE: u64 = 0x7ff0_0000_0000_0000;

    /// Every small question: five depths priced or not, widths and targets to 6, small settings.
    fn questions() -> impl Iterator<Item = (Asked, Vec<u64>)> {
        let steps = [None, Some(0), Some(1), Some(2), Some(3), Some(9)];
        let asked = move |at: usize| {
            let priced = |depth: usize| if at >> depth & 1 == 1 { 0 } else { HOLE };
            let curve: Vec<u64> = (0..5).map(priced).collect();
            let [width, target] = [at / 32 % 7, at / 224 % 7].map(|n| n as u32);
            let switch = Switch {
                cooldown_rounds: (at / 1568 % 4) as u32,
                max_step: steps[at / 6272 % 6],
                cost_ms: 1,
            };
            let asked = Asked {
                gamma: 4,
                bank: None,
                switch,
                prices: Prices::Roofline(curve.clone()),
                width,
                target,
                room: 64,
            };
            (asked, curve)
        };
        (0..37_632).map(asked)
    }

    /// The width after so many rounds, from a decision just made.
    fn after(rounds: u64, asked: &Asked, curve: &[u64]) -> u32 {
        let mut record = Record {
            width: asked.width,
            rounds: 0,
            stall: 0,
        };
        for _ in 0..rounds {
            record =
                decided(record, curve, asked.target, asked.switch).expect("nothing is refused");
        }
        record.width
    }

    #[test]
    fn the_rounds_are_enough_and_one_fewer_is_not() {
        for (asked, curve) in questions() {
            let pause = u64::from(asked.switch.cooldown_rounds).max(1);
            match asked.settled().expect("nothing is refused") {
                Settling::Within(rounds, widths) => {
                    for more in 0..3 * pause {
                        assert_eq!(after(rounds + more, &asked, &curve), asked.target);
                    }
                    if asked.width != asked.target {
                        assert_ne!(after(rounds - 1, &asked, &curve), asked.target);
                    }
                    for (walk, &width) in (1..).zip(&widths) {
                        assert_eq!(after(walk * pause, &asked, &curve), width);
                    }
                }
                Settling::NoStep(width) | Settling::NoCandidate(width) => {
                    for rounds in pause..4 * pause {
                        assert_eq!(after(rounds, &asked, &curve), width);
                    }
                }
                Settling::AtOnce => panic!("a switch that costs something is constrained"),
            }
        }
    }

    #[test]
    fn the_walks_are_the_distance_over_the_step_rounded_up() {
        for (asked, curve) in questions() {
            let Ok(Settling::Within(_, widths)) = asked.settled() else {
                continue;
            };
            let depths = 0..5u32;
            let candidates: Vec<u32> = depths.filter(|&d| curve[d as usize] < HOLE).collect();
            let place = |width| candidates.iter().filter(|&&c| c < width).count();
            let from = place(asked.width).min(candidates.len() - 1);
            let away = from.abs_diff(place(asked.target));
            let step = asked
                .switch
                .max_step
                .map_or(usize::MAX, |step| step as usize);
            assert_eq!(widths.len(), away.div_ceil(step).max(1));
        }
    }
}
