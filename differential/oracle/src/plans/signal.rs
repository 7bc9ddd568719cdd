//! Cases of a signal's survival chain, and of the price curve in force.
use crate::plans::chains::SLOTS;
use crate::plans::unchanged;
use numbers::word_case::{bits_of, listed, WordCase, NAN_BITS};

/// The chain of the first `length` confidences; the signal has a NaN in each slot past those given.
pub fn survival_chain(signal: &[u64], length: u64) -> WordCase {
    let given = &signal[..signal.len().min(SLOTS)];
    let mut slots = given.to_vec();
    slots.resize(SLOTS, NAN_BITS);
    let chain = chain(&slots, length);
    let mut answer = vec![chain.as_ref().map_or_else(|&number| number.into(), |_| 0)];
    if let Ok(chain) = chain {
        let rust = unchanged::chain(&slots, length as u32);
        assert_eq!(chain, rust, "{slots:x?}");
        answer.extend(chain);
    }
    answer.resize(1 + SLOTS, 0);
    let input = [vec![length], listed(given.iter().copied())].concat();
    WordCase::new(b's', input, answer)
}

/// The bits of the chain of the first `length` of 64 confidences; 11, then 15.
pub fn chain(slots: &[u64], length: u64) -> Result<Vec<u64>, u8> {
    let used = slots.get(..length as usize).ok_or(11)?;
    if used.iter().any(|&a| !f64::from_bits(a).is_finite()) {
        return Err(15);
    }
    Ok(products(used))
}

/// The running products of what is clamped to 0..1; minus zero stays.
fn products(confidences: &[u64]) -> Vec<u64> {
    let mut product = 1.0;
    let next = |&bits: &u64| {
        let a = f64::from_bits(bits);
        product *= match a {
            _ if a < 0.0 => 0.0,
            _ if a > 1.0 => 1.0,
            _ => a,
        };
        bits_of(product)
    };
    confidences.iter().map(next).collect()
}

/// The first gamma + 1 entries of the measured curve where there is a table, else of the roofline, or
/// all where there are fewer. The Rust makes its curve inside a plan: this is the rules' alone.
pub fn curve(roofline: &[u64], measured: &[u64], has_table: bool, gamma: u64) -> WordCase {
    let source = if has_table { measured } else { roofline };
    let entries = source.iter().enumerate();
    let first = entries.filter(|&(g, _)| g as u64 <= gamma);
    let first: Vec<u64> = first.map(|(_, &price)| price).collect();
    let input = [
        vec![has_table.into(), gamma],
        listed(roofline.iter().copied()),
        listed(measured.iter().copied()),
    ];
    let answer = [vec![0], listed(first.into_iter())];
    WordCase::new(b'c', input.concat(), answer.concat())
}
