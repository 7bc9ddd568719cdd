//! The second that an end time falls in, from the bits alone.

/// NaN and anything below zero give 0; 2^64 and above, +infinity included, give 2^64 - 1; else it
/// is the whole part.
pub fn second(end: u64) -> u64 {
    let negative = end >> 63 == 1;
    let biased_exponent = (end >> 52) & 0x7ff;
    let fraction = end & ((1 << 52) - 1);
    let is_nan = biased_exponent == 0x7ff && fraction != 0;
    if negative || is_nan || biased_exponent < 1023 {
        return 0;
    }
    let exponent = biased_exponent - 1023;
    let significand = 1 << 52 | fraction;
    match exponent {
        0..=52 => significand >> (52 - exponent),
        53..=63 => significand << (exponent - 52),
        _ => u64::MAX,
    }
}

#[cfg(test)]
mod tests {
    use super::second;

    #[test]
    fn limits_of_the_seconds() {
        let of = |end: f64| second(end.to_bits());
        assert_eq!(of(5.9), 5);
        assert_eq!(of(0.0), 0);
        assert_eq!(of(0.999), 0);
        assert_eq!(of(1.0), 1);
        assert_eq!(of(-1.0), 0);
        assert_eq!(of(f64::NAN), 0);
        assert_eq!(of(f64::INFINITY), u64::MAX);
        assert_eq!(of(f64::NEG_INFINITY), 0);
        assert_eq!(of(18_446_744_073_709_551_616.0), u64::MAX);
        assert_eq!(of(18_446_744_073_709_549_568.0), 18_446_744_073_709_549_568);
        assert_eq!(of(4_503_599_627_370_495.5), 4_503_599_627_370_495);
    }
}
