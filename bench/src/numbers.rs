//! Decimals in text: `numeral::decimal` against `str::parse::<f64>`.
use crate::dice::Dice;
use crate::ours;
use crate::report::Report;
use crate::side::by_side;

const COUNT: usize = 1_000_000;

/// 3 to 15 digits, 0 to 10 of them after the point.
fn texts(seed: u64) -> (String, Vec<usize>) {
    let dice = &mut Dice(seed);
    let (mut text, mut ends) = (String::new(), vec![0]);
    for _ in 0..COUNT {
        let digits = dice.within(3, 15);
        let decimals = dice.within(0, 10).min(digits);
        text.push((b'0' + dice.within(1, 9) as u8) as char);
        for left in (0..digits - 1).rev() {
            if left + 1 == decimals {
                text.push('.');
            }
            text.push((b'0' + dice.within(0, 9) as u8) as char);
        }
        ends.push(text.len());
    }
    (text, ends)
}

pub fn decimals(report: &mut Report) {
    let name = "decimals: a number of 3 to 15 digits, 0 to 10 of them decimals";
    if !report.wants(name) {
        return;
    }
    let (text, ends) = texts(1);
    let each = |read: &dyn Fn(&str) -> u64| {
        ends.windows(2)
            .fold(0u64, |sum, w| sum.wrapping_add(read(&text[w[0]..w[1]])))
    };
    let times = by_side(
        name,
        COUNT,
        || each(&|t| ours::decimal(t.as_bytes()).to_bits()),
        || each(&|t| t.parse::<f64>().unwrap().to_bits()),
    );
    report.rust.row(name, Some(1.0), times);
}
