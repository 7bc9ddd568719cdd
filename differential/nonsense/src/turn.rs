//! One call: what its inputs are drawn from, and what is found when it has returned.
use crate::lent::{Element, Lent};
use numbers::dice::Dice;
use std::fmt::Debug;

/// Where a call's inputs come from.
#[derive(Clone, Copy, Debug, PartialEq, Eq)]
pub enum Mixture {
    /// All bits random.
    Random,
    /// Patterns at and beside the limits of the rules: 0, 1, all ones, NaN, infinities, minus zero.
    Special,
    /// Good ones with one or several places damaged.
    Damaged,
    /// Ones that are not refused for a value.
    Good,
}

pub const MIXTURES: [Mixture; 4] = [
    Mixture::Random,
    Mixture::Special,
    Mixture::Damaged,
    Mixture::Good,
];

/// Lists above which an account has the length and the first elements alone.
const SHORT: usize = 64;

pub struct Turn {
    pub dice: Dice,
    pub mixture: Mixture,
    pub refusal: u64,
    pub shape: Option<&'static str>,
    /// What the inputs were, where an account is wanted.
    pub account: Option<Vec<String>>,
    /// What is not as the definition has it, and how many bytes outside the lent buffers changed.
    pub differences: Vec<String>,
    pub outside: usize,
}

impl Turn {
    pub fn new(mut dice: Dice, has_account: bool) -> Turn {
        let mixture = dice.pick(&MIXTURES);
        Turn {
            dice,
            mixture,
            refusal: 0,
            shape: None,
            account: has_account.then(Vec::new),
            differences: Vec::new(),
            outside: 0,
        }
    }

    /// An input that is no list, for the account.
    pub fn tell(&mut self, name: &str, value: impl Debug) {
        if let Some(account) = &mut self.account {
            account.push(format!("{name} {value:x?}"));
        }
    }

    /// A list that is lent, for the account.
    pub fn tell_list<T: Element>(&mut self, name: &str, list: &[T]) {
        if let Some(account) = &mut self.account {
            let shown = &list[..list.len().min(SHORT)];
            let dots = if shown.len() < list.len() { ".." } else { "" };
            account.push(format!("{name} [{}] {}{dots}", list.len(), hex(shown)));
        }
    }

    /// Lends a list, and tells it for the account.
    pub fn lend<T: Element>(&mut self, name: &str, lent: &mut Lent<T>, content: &[T]) {
        lent.lend(content, &mut self.dice);
        self.tell_list(name, content);
    }

    /// The answer beside the one that the definition gives.
    pub fn answer<A: PartialEq + Debug>(&mut self, answered: A, defined: A) {
        if answered != defined {
            let both = format!("answered {answered:x?}, defined {defined:x?}");
            self.differences.push(both);
        }
    }

    /// What a buffer holds at exit: the definition's content, or for one that is lent to be read what
    /// was lent. The guard around it is looked at too.
    pub fn left<T: Element>(&mut self, name: &str, lent: &Lent<T>, defined: &[T]) {
        self.guarded(name, lent);
        if lent.held() != defined {
            self.differ(name, lent.held(), defined);
        }
    }

    /// The same of floats by their bits, of which the first `written` are written: there any NaN is
    /// as good as another.
    pub fn left_floats(&mut self, name: &str, lent: &Lent<u64>, defined: &[u64], written: usize) {
        self.guarded(name, lent);
        let held = lent.held();
        let (front, rest) = held.split_at(written.min(held.len()));
        let (front_defined, rest_defined) = defined.split_at(written.min(defined.len()));
        let is_front = front.len() == front_defined.len()
            && front
                .iter()
                .zip(front_defined)
                .all(|(&a, &b)| is_same(a, b));
        if !is_front || rest != rest_defined {
            self.differ(name, held, defined);
        }
    }

    fn guarded<T: Element>(&mut self, name: &str, lent: &Lent<T>) {
        let changed = lent.changed_outside();
        if changed > 0 {
            self.outside += changed;
            let said = format!("{changed} bytes outside {name} were written");
            self.differences.push(said);
        }
    }

    fn differ<T: Element>(&mut self, name: &str, held: &[T], defined: &[T]) {
        let both = held.iter().zip(defined);
        let first = both.take_while(|(a, b)| a == b).count();
        let around = |list: &[T]| hex(&list[first.min(list.len())..list.len().min(first + 8)]);
        self.differences.push(format!(
            "{name} differs from element {first} on: {} is left, {} is defined",
            around(held),
            around(defined)
        ));
    }
}

/// Equal bits, or two NaNs.
pub fn is_same(a: u64, b: u64) -> bool {
    a == b || f64::from_bits(a).is_nan() && f64::from_bits(b).is_nan()
}

/// The one NaN for any of them: what an answer is compared by.
pub fn one_nan(value: f64) -> u64 {
    if value.is_nan() {
        f64::NAN.to_bits()
    } else {
        value.to_bits()
    }
}

fn hex<T: Element>(list: &[T]) -> String {
    let words: Vec<String> = list.iter().map(|element| format!("{element:x}")).collect();
    words.join(" ")
}

#[cfg(test)]
mod tests {
    use super::*;

    fn turn() -> Turn {
        Turn::new(Dice::new(3), false)
    }

    #[test]
    fn what_is_left_is_compared_to_the_last_element() {
        let (mut turn, mut lent) = (turn(), Lent::<u32>::new());
        turn.lend("list", &mut lent, &[1, 2, 3]);
        turn.left("list", &lent, &[1, 2, 3]);
        assert!(turn.differences.is_empty());
        turn.left("list", &lent, &[1, 2, 4]);
        turn.left("list", &lent, &[1, 2]);
        assert_eq!(turn.differences.len(), 2);
    }

    #[test]
    fn a_nan_may_be_another_where_it_is_written() {
        let nans = [0x7ff8_0000_0000_0000, 0xfff8_0000_0000_0001];
        let (mut turn, mut lent) = (turn(), Lent::<u64>::new());
        turn.lend("floats", &mut lent, &[nans[0], nans[0]]);
        turn.left_floats("floats", &lent, &[nans[1], nans[0]], 1);
        assert!(turn.differences.is_empty());
        turn.left_floats("floats", &lent, &[nans[0], nans[1]], 1);
        assert_eq!(turn.differences.len(), 1);
    }
}
