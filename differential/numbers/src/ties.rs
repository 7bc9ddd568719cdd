//! Decimals nearest to ties: to the middle between two doubles that follow each other.
//!
//! `n / 10^k` lies between doubles that are the whole multiples of some `2^-shift`. It is a tie
//! where `n * 2^shift / 10^k` is a whole number and a half, so where `n * 2^(shift + 1 - k)` is an
//! odd multiple of `5^k`. A tie has 54 bits and 15 digits make 50, so that there is none; but `n`
//! may miss by 1, the least there is, since one side is even and the other odd. Missing by `miss`
//! means `n * 2^(shift + 1 - k) = 5^k + miss` modulo `2 * 5^k`, which gives `n` modulo `5^k`.
use crate::dice::Dice;
use crate::reading::MOST_DECIMALS;

const NUMBERS_END: u128 = 1_000_000_000_000_000;

/// The numbers n below 10^15 whose quotient by 10^k, times 2^shift, has 53 bits.
struct Range {
    decimals: usize,
    shift: u32,
    first: u128,
    end: u128,
}

impl Range {
    fn new(decimals: usize, shift: u32) -> Range {
        let power = 10u128.pow(decimals as u32);
        let least = |quotient: u128| (power * quotient).div_ceil(1 << shift);
        Range {
            decimals,
            shift,
            first: least(1 << 52),
            end: least(1 << 53).min(NUMBERS_END),
        }
    }

    /// A number of the range that misses a tie by `miss`, or by the next larger odd number that
    /// some number of the range has.
    fn missing_by(&self, mut miss: u128, above: bool, dice: &mut Dice) -> u64 {
        let fives = 5u128.pow(self.decimals as u32);
        loop {
            let residue = self.residue(if above { fives + miss } else { fives - miss });
            let first = self.first + (residue + fives - self.first % fives) % fives;
            if first < self.end {
                let more = (self.end - 1 - first) / fives;
                return (first + fives * u128::from(dice.below(more as u64 + 1))) as u64;
            }
            miss += 2;
        }
    }

    /// The n modulo 5^k with n * 2^(shift + 1 - k) = wanted modulo 2 * 5^k, where wanted is even.
    fn residue(&self, wanted: u128) -> u128 {
        let fives = 5u128.pow(self.decimals as u32);
        let half = fives.div_ceil(2);
        let twos = self.shift as usize - self.decimals;
        (0..twos).fold(wanted / 2 % fives, |n, _| n * half % fives)
    }
}

/// The shift of the largest numbers below 10^15.
fn least_shift(decimals: usize) -> u32 {
    let is_used = |shift: &u32| Range::new(decimals, *shift).first < NUMBERS_END;
    (0..).find(is_used).unwrap()
}

/// One number of every count of decimals, each of its four largest powers of two, and each side.
pub fn nearest_to_ties(dice: &mut Dice) -> Vec<(u64, usize)> {
    let mut found = Vec::new();
    for decimals in 1..=MOST_DECIMALS {
        let least = least_shift(decimals);
        for shift in least..least + 4 {
            for above in [false, true] {
                let range = Range::new(decimals, shift);
                found.push((range.missing_by(1, above, dice), decimals));
            }
        }
    }
    found
}

/// Some number, and its decimals, that misses a tie by little.
pub fn near_a_tie(dice: &mut Dice) -> (u64, usize) {
    let decimals = dice.between(1, MOST_DECIMALS);
    let shift = least_shift(decimals) + dice.below(8) as u32;
    let above = dice.once_in(2);
    let fives = 5u64.pow(decimals as u32);
    let miss = 2 * dice.below(fives.min(1000) / 2) + 1;
    let number = Range::new(decimals, shift).missing_by(u128::from(miss), above, dice);
    (number, decimals)
}

#[cfg(test)]
mod tests {
    use super::*;

    /// How far the rest of `n * 2^shift / 10^k` is from half the divisor, doubled: the miss times
    /// 2^k.
    fn misses_by(number: u64, decimals: usize) -> u128 {
        let power = 10u128.pow(decimals as u32);
        let mut scaled = u128::from(number);
        while scaled / power < 1 << 52 {
            scaled *= 2;
        }
        (2 * (scaled % power)).abs_diff(power)
    }

    #[test]
    fn up_to_twenty_decimals_the_miss_is_the_least_there_is() {
        for (number, decimals) in nearest_to_ties(&mut Dice::new(3)) {
            let least = 1 << decimals;
            let miss = misses_by(number, decimals);
            assert!(u128::from(number) < NUMBERS_END && miss.is_multiple_of(least));
            assert!(miss == least || decimals > 20, "{number} {decimals} {miss}");
            assert!(miss < 32 * least, "{number} {decimals} {miss}");
        }
    }
}
