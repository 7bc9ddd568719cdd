//! The f64 nearest to a quotient, by whole numbers alone.

/// The bits of the f64 nearest to `number / 10^decimals`, ties to even. Of use for numbers below
/// 2^54 and at most 22 decimals: then no result is subnormal (the smallest but zero is 10^-22; the
/// smallest that an f64 holds, 5e-324, is out of reach) and u128 holds all that is met.
pub fn nearest(number: u64, decimals: usize) -> u64 {
    assert!(number < 1 << 54 && decimals <= 22);
    if number == 0 {
        return 0;
    }
    let (number, divisor) = (u128::from(number), 10u128.pow(decimals as u32));
    // shifted so far that the whole quotient has 53 or 54 bits; 10^22 has 74 bits, so that the
    // shifted number has at most 127
    let shift = 53 + bit_length(divisor) - bit_length(number);
    let scaled = number << shift;
    // one bit too many: divide by twice as much, and the quotient has exactly 53
    let doubled = u32::from(scaled / divisor >= 1 << 53);
    let divisor = divisor << doubled;
    let (quotient, rest) = (scaled / divisor, scaled % divisor);
    let up = 2 * rest > divisor || (2 * rest == divisor && quotient % 2 == 1);
    let significand = quotient as u64 + u64::from(up);
    // The value is significand * 2^(doubled - shift). A significand of 2^53, rounded up to, carries
    // into the exponent by itself.
    let biased_exponent = u64::from(1023 + 52 + doubled - shift);
    (biased_exponent << 52) + (significand - (1 << 52))
}

fn bit_length(number: u128) -> u32 {
    128 - number.leading_zeros()
}

#[cfg(test)]
mod tests {
    use super::*;

    #[test]
    fn known_decimals() {
        assert_eq!(nearest(1, 1), 0x3fb9_9999_9999_999a); // 0.1
        assert_eq!(nearest(3, 1), 0x3fd3_3333_3333_3333); // 0.3
        assert_eq!(nearest(5, 1), 0x3fe0_0000_0000_0000); // 0.5
        assert_eq!(nearest(1, 0), 0x3ff0_0000_0000_0000); // 1
        assert_eq!(nearest(19, 1), 0x3ffe_6666_6666_6666); // 1.9
        assert_eq!(nearest(1, 22), 0x3b5e_3920_1017_5ee6); // 1e-22, the smallest but zero
        assert_eq!(nearest(0, 22), 0);
        assert_eq!(nearest(999_999_999_999_999, 0), 0x430c_6bf5_2633_fff8);
    }

    /// A tie needs a numerator of 54 bits: 15 digits have 50, so that no text that is read is
    /// one. The rule is there all the same, and is met just above 2^53.
    #[test]
    fn ties_go_to_even() {
        let two_53 = 1u64 << 53;
        assert_eq!(
            f64::from_bits(nearest(two_53 + 1, 0)),
            9_007_199_254_740_992.0
        );
        assert_eq!(
            f64::from_bits(nearest(two_53 + 2, 0)),
            9_007_199_254_740_994.0
        );
        assert_eq!(
            f64::from_bits(nearest(two_53 + 3, 0)),
            9_007_199_254_740_996.0
        );
        // the last one carries into the exponent
        assert_eq!(
            f64::from_bits(nearest((1 << 54) - 1, 0)),
            18_014_398_509_481_984.0
        );
    }

    /// Numbers of up to 15 digits that lie as near to the middle between two doubles as any can.
    #[test]
    fn next_to_ties_the_nearer_side_is_taken() {
        for (number, decimals) in crate::ties::nearest_to_ties(&mut crate::dice::Dice::new(7)) {
            let spelled = format!("{number}e-{decimals}");
            let wanted: f64 = spelled.parse().unwrap();
            assert_eq!(nearest(number, decimals), wanted.to_bits(), "{spelled}");
        }
    }
}
