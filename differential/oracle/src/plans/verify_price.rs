//! The verify price of a mean width: by default as the Rust has it, or bridged, straight between the
//! nearest measured depths. A depth is measured where its price is finite.

/// Where a mean width takes its price from.
#[derive(Clone, Copy, Debug, PartialEq, Eq)]
pub enum Mode {
    Default,
    Bridged,
}

pub const MODES: [Mode; 2] = [Mode::Default, Mode::Bridged];

impl Mode {
    /// The price of t tokens over n sequences, of the prices of the depths 0 to gamma.
    pub fn price(self, prices: &[f64], n: u32, t: f64) -> f64 {
        let mean = mean_width(t, n, prices.len() - 1);
        match self {
            Mode::Default => between_neighbours(prices, mean),
            Mode::Bridged => between_measured(prices, mean),
        }
    }
}

/// The tokens a sequence beside its own one, of 0 to gamma.
fn mean_width(t: f64, n: u32, gamma: usize) -> f64 {
    let mean = t / f64::from(n) - 1.0;
    if mean < 0.0 {
        0.0
    } else if mean > gamma as f64 {
        gamma as f64
    } else {
        mean
    }
}

fn between_neighbours(prices: &[f64], mean: f64) -> f64 {
    let below = (mean as usize).min(prices.len() - 2);
    let part = mean - below as f64;
    if part > 0.0 {
        prices[below] + part * (prices[below + 1] - prices[below])
    } else {
        prices[below]
    }
}

/// At a measured depth its own price; +infinity where none is measured on one of the two sides.
fn between_measured(prices: &[f64], mean: f64) -> f64 {
    let depths = prices
        .iter()
        .enumerate()
        .map(|(d, &price)| (d as f64, price));
    let measured = depths.filter(|(_, price)| price.is_finite());
    let below = measured.clone().rfind(|&(d, _)| d <= mean);
    let above = measured.clone().find(|&(d, _)| d >= mean);
    match (below, above) {
        (Some((low, price)), Some((high, _))) if low == high => price,
        (Some((low, lower)), Some((high, upper))) => {
            lower + (mean - low) / (high - low) * (upper - lower)
        }
        _ => f64::INFINITY,
    }
}

#[cfg(test)]
mod tests {
    use super::*;
    use crate::compute::measured::probe::of_rows;
    use numbers::dice::Dice;

    const NONE: f64 = f64::INFINITY;

    /// The prices of one sequence at some mean widths.
    fn bridged(prices: &[f64], widths: &[f64]) -> Vec<f64> {
        let price = |width: &f64| Mode::Bridged.price(prices, 1, width + 1.0);
        widths.iter().map(price).collect()
    }

    #[test]
    fn at_the_deepest_mean_width_the_price_is_worked_out_from_the_one_before() {
        let prices = [0.1, 0.7];
        let price = |n, t| Mode::Default.price(&prices, n, t);
        assert_eq!(price(2, 4.0), 0.1 + 1.0 * (0.7 - 0.1));
        assert_eq!(price(2, 2.0), 0.1);
        assert_eq!(Mode::Default.price(&[1.0, 2.0, 4.0], 2, 5.0), 3.0);
    }

    #[test]
    fn a_hole_is_crossed_and_a_measured_depth_has_its_own_price() {
        let prices = [1.0, NONE, NONE, NONE, 2.0];
        let widths = [0.0, 0.5, 1.0, 2.0, 3.0, 3.5, 4.0];
        let wanted = [1.0, 1.125, 1.25, 1.5, 1.75, 1.875, 2.0];
        assert_eq!(bridged(&prices, &widths), wanted);
        assert_eq!(Mode::Default.price(&prices, 1, 2.0), NONE);
        assert!(Mode::Default.price(&prices, 1, 5.0).is_nan());
    }

    #[test]
    fn the_nearest_measured_depths_count() {
        let prices = [8.0, NONE, 2.0, NONE, NONE, 8.0, 1.0];
        let widths = [1.0, 1.5, 2.0, 3.0, 4.0, 4.5, 5.0, 5.5];
        let wanted = [5.0, 3.5, 2.0, 4.0, 6.0, 7.0, 8.0, 4.5];
        assert_eq!(bridged(&prices, &widths), wanted);
    }

    #[test]
    fn outside_the_measured_depths_there_is_no_price() {
        let prices = [NONE, NONE, 1.0, NONE, 3.0, NONE];
        let widths = [0.0, 1.0, 1.75, 2.0, 3.0, 4.0, 4.25, 5.0];
        let wanted = [NONE, NONE, NONE, 1.0, 2.0, 3.0, NONE, NONE];
        assert_eq!(bridged(&prices, &widths), wanted);
        assert_eq!(bridged(&[NONE; 3], &[0.0, 0.5, 2.0]), [NONE; 3]);
    }

    /// The part of the way is worked out first, and the rise is multiplied by it.
    #[test]
    fn the_operations_are_those_of_the_fractional_lookup() {
        let prices = [0.1, NONE, NONE, 1.9];
        assert_eq!(bridged(&prices, &[1.0]), [0.699_999_999_999_999_8]);
        assert_eq!(0.1 + (1.9 - 0.1) / 3.0, 0.7);
    }

    /// Without a hole the modes part at the deepest mean width alone.
    #[test]
    fn without_a_hole_the_modes_agree_below_the_deepest_width() {
        let prices = [0.1, 0.7, 0.3, 1.9];
        for tokens in 7..28 {
            let t = f64::from(tokens);
            let both = MODES.map(|mode| mode.price(&prices, 7, t));
            assert_eq!(both[0], both[1], "{tokens}");
        }
        let both = MODES.map(|mode| mode.price(&prices, 7, 28.0));
        assert_eq!(both, [0.3 + 1.0 * (1.9 - 0.3), 1.9]);
    }
    /// Where a table has the prices, the bridged price is what the Rust's own fractional lookup gives:
    /// every pattern of holes up to depth 7, every mean width of up to 8 sequences.
    #[test]
    fn the_fractional_lookup_of_the_rust_gives_the_same() {
        let dice = &mut Dice::new(112);
        for pattern in 0..1u32 << 8 {
            let prices: Vec<f64> = (0..8)
                .map(|d| match pattern >> d & 1 {
                    0 => dice.between(1, 1 << 30) as f64 / 3e8,
                    _ => NONE,
                })
                .collect();
            let measured = (0..8).filter(|&d| prices[d as usize].is_finite());
            let rows: Vec<(u32, u32, f64)> = measured.map(|d| (d, 1, prices[d as usize])).collect();
            let table = of_rows(&rows);
            for (n, tokens) in (1..=8).flat_map(|n| (n..=8 * n).map(move |tokens| (n, tokens))) {
                let t = f64::from(tokens);
                let looked_up = table.step_time_frac(1, t / f64::from(n) - 1.0);
                let price = Mode::Bridged.price(&prices, n, t);
                assert_eq!(price.to_bits(), looked_up.unwrap_or(NONE).to_bits());
            }
        }
    }
}
