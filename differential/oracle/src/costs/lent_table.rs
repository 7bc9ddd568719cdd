//! A table that is lent as three columns, and the rules' lookups in it. Floats by their bits.
use crate::costs::table::Row;
use crate::range::{in_range, in_signed_range};
use numbers::word_case::{bits_of, listed};

const MOST_ROWS: u64 = 4096;
const MOST_SECONDS: f64 = 1e17;
pub const INFINITY: u64 = 0x7ff0_0000_0000_0000;

#[derive(Clone, Debug, PartialEq, Eq, Hash)]
pub struct LentTable {
    pub rows: u64,
    pub depths: Vec<u32>,
    pub batches: Vec<u32>,
    pub seconds: Vec<u64>,
}

impl LentTable {
    /// Columns just as long as the rows.
    pub fn of(rows: &[Row]) -> LentTable {
        LentTable {
            rows: rows.len() as u64,
            depths: rows.iter().map(|row| row.depth).collect(),
            batches: rows.iter().map(|row| row.batch).collect(),
            seconds: rows.iter().map(|row| row.seconds).collect(),
        }
    }

    /// What a case writes of it.
    pub fn words(&self) -> Vec<u64> {
        let mut words = vec![self.rows];
        words.extend(listed(self.depths.iter().map(|&depth| depth.into())));
        words.extend(listed(self.batches.iter().map(|&batch| batch.into())));
        words.extend(listed(self.seconds.iter().copied()));
        words
    }

    /// Its rows, or the refusal's number: 11, 16, 15.
    pub fn judged(&self) -> Result<Vec<Row>, u8> {
        if self.rows > MOST_ROWS {
            return Err(11);
        }
        let rows = self.rows as usize;
        let lengths = [self.depths.len(), self.batches.len(), self.seconds.len()];
        if lengths.iter().any(|&length| length < rows) {
            return Err(16);
        }
        let row = |at: usize| Row {
            depth: self.depths[at],
            batch: self.batches[at],
            seconds: self.seconds[at],
        };
        let rows: Vec<Row> = (0..rows).map(row).collect();
        let falls = |pair: &[Row]| {
            let [first, second] = [pair[0], pair[1]].map(|row| (row.depth, row.batch));
            second < first
        };
        let is_wrong = |row: &Row| row.seconds == 0 || !in_range(row.seconds, 0.0, MOST_SECONDS);
        if rows.windows(2).any(falls) || rows.iter().any(is_wrong) {
            return Err(15);
        }
        Ok(rows)
    }
}

/// The bits of the seconds at a depth: the nearest batch, the smaller of two, the earlier row.
pub fn step_time(rows: &[Row], batch: u32, depth: u32) -> Option<u64> {
    let mut best: Option<Row> = None;
    for &row in rows.iter().filter(|row| row.depth == depth) {
        let far = |row: Row| i64::from(row.batch).abs_diff(i64::from(batch));
        let is_better = best.is_none_or(|held| {
            far(row) < far(held) || far(row) == far(held) && row.batch < held.batch
        });
        if is_better {
            best = Some(row);
        }
    }
    best.map(|row| row.seconds)
}

/// The first and the last batch of a depth.
pub fn batch_range(rows: &[Row], depth: u32) -> Option<(u32, u32)> {
    let of_depth: Vec<&Row> = rows.iter().filter(|row| row.depth == depth).collect();
    Some((of_depth.first()?.batch, of_depth.last()?.batch))
}

/// The bits of the seconds between the measured depths around `g`.
pub fn step_time_frac(rows: &[Row], batch: u32, g: u64) -> Option<u64> {
    let asked = f64::from_bits(g);
    let is_clear = g < INFINITY || asked == 0.0;
    if !is_clear {
        return None;
    }
    let depths = || rows.iter().map(|row| row.depth);
    let low = depths().filter(|&depth| f64::from(depth) <= asked).max()?;
    let high = depths().filter(|&depth| f64::from(depth) >= asked).min()?;
    let at_low = step_time(rows, batch, low)?;
    if low == high {
        return Some(at_low);
    }
    let [a, b] = [at_low, step_time(rows, batch, high)?].map(f64::from_bits);
    let f = (asked - f64::from(low)) / (f64::from(high) - f64::from(low));
    Some(bits_of(a + f * (b - a)))
}

/// The price at each of the depths 0 to 64, or the refusal's number.
pub fn price_curve(rows: &[Row], batch: u32, kv_delta: u64) -> Result<Vec<u64>, u8> {
    if !in_signed_range(kv_delta, -1e9, 1e9) {
        return Err(15);
    }
    let price = |depth| {
        step_time(rows, batch, depth).map_or(INFINITY, |seconds| {
            let t = f64::from_bits(seconds);
            let [shifted, least] = [t + f64::from_bits(kv_delta), 0.25 * t];
            bits_of(if shifted < least { least } else { shifted })
        })
    };
    Ok((0..=64).map(price).collect())
}
