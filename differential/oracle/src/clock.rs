//! End times that follow each other.
use numbers::dice::Dice;
use numbers::end_times;

/// How the end times of a sequence follow each other.
pub enum Clock {
    /// Ever later, but for a step back at times.
    Walking { now: f64, goes_back: bool },
    /// A few end times again and again.
    Few { ends: Vec<u64> },
    /// Any bit pattern.
    Any,
    /// So many seconds that lie `step` apart from one on, and others beside and behind them.
    Near { second: u64, step: u64, count: u64 },
}

impl Clock {
    pub fn draw(dice: &mut Dice) -> Clock {
        match dice.below(8) {
            0..=3 => Clock::Walking {
                now: dice.pick(&[0.0, 5.5, 86_399.25, 1e9, 1e15]),
                goes_back: dice.once_in(2),
            },
            4..=6 => Clock::few(dice),
            _ => Clock::Any,
        }
    }

    /// One to six end times, the first and the last second among them at times.
    fn few(dice: &mut Dice) -> Clock {
        let special = [f64::NAN, -1.0, -0.0, 0.0, 0.5, 5.5, 5.9, 6.0, 1e300];
        let end = |dice: &mut Dice| match dice.below(4) {
            0 => end_times::random(dice),
            1 => (dice.below(10_000) as f64 / 1000.0).to_bits(),
            2 => f64::INFINITY.to_bits(),
            _ => dice.pick(&special).to_bits(),
        };
        let count = dice.between(1, 6);
        Clock::Few {
            ends: (0..count).map(|_| end(dice)).collect(),
        }
    }

    /// The next end time's bits.
    pub fn next(&mut self, dice: &mut Dice) -> u64 {
        match self {
            Clock::Walking { now, goes_back } => {
                let back = dice.pick(&[0.25, 1.0, 2.0, 10.0, 3600.0]);
                *now += if *goes_back && dice.once_in(5) {
                    -back
                } else {
                    dice.below(1600) as f64 / 1000.0
                };
                now.to_bits()
            }
            Clock::Few { ends } => dice.pick(ends),
            Clock::Any => end_times::random(dice),
            Clock::Near {
                second,
                step,
                count,
            } => {
                let last = *second + *step * (*count - 1);
                end_in(match dice.below(4) {
                    0 | 1 => *second + *step * dice.below(*count),
                    2 => *second + *step * dice.below(*count) + 1,
                    _ => last + dice.below(4 * *step),
                })
            }
        }
    }
}

/// The bits of an end time in a second below 2^53.
pub fn end_in(second: u64) -> u64 {
    assert!(second < 1 << 53, "a second that no end time is exactly");
    (second as f64).to_bits()
}
