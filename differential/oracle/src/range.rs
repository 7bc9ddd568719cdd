//! The rules' ranges of floats, by their bits.

/// Whether a float lies in a range of 0 or more: no NaN, its sign bit clear, within both ends. The
/// bits of such floats are in the floats' order.
pub fn in_range(bits: u64, low: f64, high: f64) -> bool {
    (low.to_bits()..=high.to_bits()).contains(&bits)
}

/// The same, or plus infinity.
pub fn in_range_or_infinite(bits: u64, low: f64, high: f64) -> bool {
    in_range(bits, low, high) || bits == f64::INFINITY.to_bits()
}

/// Whether a float of either sign lies in a range.
pub fn in_signed_range(bits: u64, low: f64, high: f64) -> bool {
    let value = f64::from_bits(bits);
    low <= value && value <= high
}

/// Whether a float is finite and its sign bit clear.
pub fn is_finite_and_clear(bits: u64) -> bool {
    bits < f64::INFINITY.to_bits()
}

#[cfg(test)]
mod tests {
    use super::*;

    #[test]
    fn minus_zero_and_nan_are_out() {
        let is_in = |value: f64| in_range(value.to_bits(), 0.0, 1.0);
        assert!(is_in(0.0) && is_in(1.0) && is_in(f64::MIN_POSITIVE));
        assert!(!is_in(-0.0) && !is_in(f64::NAN) && !is_in(-0.5) && !is_in(1.5));
        let is_signed = |value: f64| in_signed_range(value.to_bits(), -1.0, 1.0);
        assert!(is_signed(-0.0) && is_signed(-1.0) && !is_signed(f64::NAN) && !is_signed(1.5));
    }
}
