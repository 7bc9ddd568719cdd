//! Rust's f64 made total, by the bits alone.
use numbers::word_case::NAN_BITS;

const SIGN: u64 = 1 << 63;
const INFINITY: u64 = 0x7ff0_0000_0000_0000;

/// The place of a float among all that are ordered; none for a NaN. Both zeros have the same.
fn place(bits: u64) -> Option<i64> {
    let size = bits & !SIGN;
    let place = size as i64;
    match bits & SIGN {
        _ if size > INFINITY => None,
        0 => Some(place),
        _ => Some(-place),
    }
}

/// Whether one float is below another: no NaN is, and nothing is below a NaN.
pub fn is_below(first: u64, second: u64) -> bool {
    place(first)
        .zip(place(second))
        .is_some_and(|(first, second)| first < second)
}

pub fn is_nan(bits: u64) -> bool {
    place(bits).is_none()
}

/// Every NaN by the one pattern that the definitions have.
pub fn one_nan(bits: u64) -> u64 {
    if is_nan(bits) {
        NAN_BITS
    } else {
        bits
    }
}

/// The larger; where one is a NaN the other, and of two equal ones the first.
pub fn max(first: u64, second: u64) -> u64 {
    if is_nan(first) || is_below(first, second) {
        second
    } else {
        first
    }
}

/// Not below `low`, then not above `high`; a NaN stays.
pub fn clamp(x: u64, low: u64, high: u64) -> u64 {
    let raised = if is_below(x, low) { low } else { x };
    if is_below(high, raised) {
        high
    } else {
        raised
    }
}

pub fn is_finite(bits: u64) -> bool {
    bits & !SIGN < INFINITY
}

/// No NaN, and the sign bit clear.
pub fn is_clear(bits: u64) -> bool {
    bits <= INFINITY
}

fn is_within(x: u64, low: u64, high: u64) -> bool {
    !is_below(x, low) && !is_below(high, x)
}

pub fn in_range(x: u64, low: u64, high: u64) -> bool {
    is_clear(x) && is_within(x, low, high)
}

pub fn in_range_or_infinite(x: u64, low: u64, high: u64) -> bool {
    x == INFINITY || in_range(x, low, high)
}

pub fn in_signed_range(x: u64, low: u64, high: u64) -> bool {
    !is_nan(x) && is_within(x, low, high)
}

#[cfg(test)]
mod tests {
    use super::*;

    const ONE: u64 = 0x3ff0_0000_0000_0000;

    #[test]
    fn zeros_are_equal_and_nans_have_no_place() {
        assert!(!is_below(SIGN, 0) && !is_below(0, SIGN));
        assert!(is_below(SIGN | 1, 0) && is_below(SIGN | INFINITY, INFINITY));
        assert!(!is_below(NAN_BITS, ONE) && !is_below(ONE, INFINITY + 1));
        assert_eq!(max(SIGN, 0), SIGN);
        assert_eq!(max(u64::MAX, ONE), ONE);
        assert_eq!(max(ONE, u64::MAX), ONE);
    }

    #[test]
    fn what_has_no_order_is_not_clamped() {
        assert_eq!(clamp(SIGN, 0, ONE), SIGN);
        assert_eq!(clamp(NAN_BITS, 0, ONE), NAN_BITS);
        assert_eq!(clamp(ONE, NAN_BITS, NAN_BITS), ONE);
        assert_eq!(clamp(SIGN | ONE, ONE, 0), 0);
    }
}
