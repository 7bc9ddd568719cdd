//! What the calls of a function met.
use crate::function::Function;
use crate::turn::{Turn, MIXTURES};
use std::collections::BTreeMap;

/// From how many calls on a function has to be answered and refused, and from how many on with each
/// number that it refuses with.
const SOME_CALLS: u64 = 1_000;
const MANY_CALLS: u64 = 50_000;

#[derive(Default)]
pub struct Tally {
    pub calls: u64,
    pub answered: u64,
    pub refused: BTreeMap<u64, u64>,
    mixtures: [u64; MIXTURES.len()],
    shapes: BTreeMap<&'static str, u64>,
}

impl Tally {
    pub fn count(&mut self, turn: &Turn) {
        self.calls += 1;
        match turn.refusal {
            0 => self.answered += 1,
            number => *self.refused.entry(number).or_default() += 1,
        }
        self.mixtures[turn.mixture as usize] += 1;
        if let Some(shape) = turn.shape {
            *self.shapes.entry(shape).or_default() += 1;
        }
    }

    /// What is missing among the answers and the refusals, where there were calls enough.
    pub fn missing(&self, function: &dyn Function) -> Option<String> {
        let refuses = function.refuses();
        let others = self.refused.keys().find(|number| !refuses.contains(number));
        let unmet = refuses
            .iter()
            .find(|number| !self.refused.contains_key(number));
        if let Some(number) = others {
            return Some(format!("met refusal {number}, which it does not give"));
        }
        if self.calls >= SOME_CALLS && self.answered == 0 {
            return Some("met nothing but refusals".into());
        }
        if self.calls >= SOME_CALLS && !refuses.is_empty() && self.refused.is_empty() {
            return Some("met nothing but answers".into());
        }
        unmet
            .filter(|_| self.calls >= MANY_CALLS)
            .map(|number| format!("never met refusal {number}"))
    }

    /// The line that is printed.
    pub fn line(&self, name: &str) -> String {
        let mut line = format!("{name}: {} calls, {} answered", self.calls, self.answered);
        let pairs = |list: Vec<String>| list.join(" ");
        if !self.refused.is_empty() {
            let refused = self
                .refused
                .iter()
                .map(|(number, n)| format!("{number}:{n}"));
            line += &format!(", refused {}", pairs(refused.collect()));
        }
        let of = MIXTURES.iter().zip(self.mixtures);
        let of = of.map(|(mixture, n)| format!("{} {n}", format!("{mixture:?}").to_lowercase()));
        line += &format!("; inputs {}", of.collect::<Vec<_>>().join(", "));
        if !self.shapes.is_empty() {
            let shapes = self.shapes.iter().map(|(shape, n)| format!("{shape} {n}"));
            line += &format!("; {}", shapes.collect::<Vec<_>>().join(", "));
        }
        line
    }
}

#[cfg(test)]
mod tests {
    use super::*;
    use crate::function::plain;
    use numbers::dice::Dice;

    fn met(refusals: &[u64]) -> Option<String> {
        let function = plain("any", &[11, 16], |_| {});
        let mut tally = Tally::default();
        for place in 0..MANY_CALLS {
            let mut turn = Turn::new(Dice::new(place), false);
            turn.refusal = refusals[place as usize % refusals.len()];
            tally.count(&turn);
        }
        tally.missing(&*function)
    }

    #[test]
    fn a_function_has_to_be_answered_and_refused_with_each_number() {
        assert_eq!(met(&[0, 11, 16]), None);
        assert_eq!(met(&[11, 16]), Some("met nothing but refusals".into()));
        assert_eq!(met(&[0]), Some("met nothing but answers".into()));
        assert_eq!(met(&[0, 11]), Some("never met refusal 16".into()));
        let other = "met refusal 15, which it does not give";
        assert_eq!(met(&[0, 15]), Some(other.into()));
    }
}
