//! Cases of cost tables: a text that is read, and lookups in columns that are lent.
use numbers::refusal::Reason;
use numbers::word_case::{bits_of, packed, WordCase};
use oracle::agreement::assert_agreement;
use oracle::compute::measured::probe;
use oracle::compute::MeasuredCostTable;
use oracle::costs::lent_table::{self, LentTable};
use oracle::costs::table::{self, Row, Table};
use oracle::plans::prices::is_deep;

/// What a slot of depths or batches holds before the call.
const WHOLE_BEFORE: u64 = 0xDEAD_BEEF;

/// The bits of what a slot of seconds holds before the call: 42.0.
const FLOAT_BEFORE: u64 = 0x4045_0000_0000_0000;

/// The measured rows are read out of the Rust's table by their bits.
fn rows_of(table: &MeasuredCostTable) -> Vec<Row> {
    let row = |(depth, batch, seconds): (u32, u32, f64)| Row {
        depth,
        batch,
        seconds: seconds.to_bits(),
    };
    probe::rows(table).into_iter().map(row).collect()
}

/// A text, with so many slots lent in each of the three columns.
pub fn read(text: &[u8], room: [usize; 3]) -> WordCase {
    let least = room.into_iter().min().unwrap_or(0);
    let ours = table::read(text, least);
    let rust = std::str::from_utf8(text)
        .map_err(|fault| fault.to_string())
        .and_then(probe::parse);
    let rust = rust.map(|table| rows_of(&table));
    assert_agreement(text, &ours, &rust, |table, rows| &table.kept == rows);
    let answer = match &ours {
        Ok(table) => [
            vec![0, 0, table.kept.len() as u64],
            left_in_columns(table, room),
        ],
        Err(refusal) => [
            vec![refusal.number.into(), refusal.row, 0],
            left_in_columns(
                &Table {
                    ordered: vec![],
                    kept: vec![],
                },
                room,
            ),
        ],
    };
    let alone = ours.err().filter(|_| rust.is_ok());
    let input = [room.map(|slots| slots as u64).to_vec(), packed(text)];
    WordCase::new(b't', input.concat(), answer.concat())
        .with_rust_alone(alone.and_then(|refusal| Reason::of(&refusal)))
}

/// The kept rows stand at the front of the rows in order, and what was there before behind them.
fn left_in_columns(table: &Table, room: [usize; 3]) -> Vec<u64> {
    let behind = &table.ordered[table.kept.len()..];
    let rows = [&table.kept, behind].concat();
    let column = |slots: usize, value: fn(&Row) -> u64, before: u64| {
        let mut column: Vec<u64> = rows.iter().map(value).collect();
        column.resize(slots, before);
        column
    };
    [
        column(room[0], |row| row.depth.into(), WHOLE_BEFORE),
        column(room[1], |row| row.batch.into(), WHOLE_BEFORE),
        column(room[2], |row| row.seconds, FLOAT_BEFORE),
    ]
    .concat()
}

/// What is asked of a lent table.
#[derive(Clone, Copy, Debug)]
pub enum Asked {
    Refusal,
    StepTime { batch: u32, depth: u32 },
    HasDraft { depth: u32 },
    BatchRange { depth: u32 },
    MaxBatch { depth: u32 },
    StepTimeFrac { batch: u32, g: u64 },
    PriceCurve { batch: u32, kv_delta: u64 },
}

impl Asked {
    fn letter(self) -> u8 {
        match self {
            Asked::Refusal => b'j',
            Asked::StepTime { .. } => b's',
            Asked::HasDraft { .. } => b'h',
            Asked::BatchRange { .. } => b'r',
            Asked::MaxBatch { .. } => b'm',
            Asked::StepTimeFrac { .. } => b'f',
            Asked::PriceCurve { .. } => b'p',
        }
    }

    /// What it is asked with: two words, 0 where there are fewer numbers.
    fn words(self) -> Vec<u64> {
        match self {
            Asked::Refusal => vec![0, 0],
            Asked::HasDraft { depth } | Asked::BatchRange { depth } | Asked::MaxBatch { depth } => {
                vec![0, depth.into()]
            }
            Asked::StepTime { batch, depth } => vec![batch.into(), depth.into()],
            Asked::StepTimeFrac { batch, g } => vec![batch.into(), g],
            Asked::PriceCurve { batch, kv_delta } => vec![batch.into(), kv_delta],
        }
    }

    /// How many words an answer has behind the refusal's number.
    fn width(self) -> usize {
        match self {
            Asked::Refusal => 0,
            Asked::HasDraft { .. } => 1,
            Asked::StepTime { .. } | Asked::MaxBatch { .. } | Asked::StepTimeFrac { .. } => 2,
            Asked::BatchRange { .. } => 3,
            Asked::PriceCurve { .. } => 65,
        }
    }

    /// What the rules answer over rows that are lawful.
    fn by_the_rules(self, rows: &[Row]) -> Result<Vec<u64>, u8> {
        Ok(match self {
            Asked::Refusal => vec![],
            Asked::StepTime { batch, depth } => one(lent_table::step_time(rows, batch, depth)),
            Asked::HasDraft { depth } => {
                vec![lent_table::batch_range(rows, depth).is_some().into()]
            }
            Asked::BatchRange { depth } => two(lent_table::batch_range(rows, depth)),
            Asked::MaxBatch { depth } => {
                one(lent_table::batch_range(rows, depth).map(|(_, last)| last.into()))
            }
            Asked::StepTimeFrac { batch, g } => one(lent_table::step_time_frac(rows, batch, g)),
            Asked::PriceCurve { batch, kv_delta } => {
                lent_table::price_curve(rows, batch, kv_delta)?
            }
        })
    }

    /// What the Rust answers. Its price curve is worked out inside a plan, so the lookups are its
    /// own and the two operations on each are repeated here.
    fn by_the_rust(self, table: &MeasuredCostTable) -> Vec<u64> {
        match self {
            Asked::Refusal => vec![],
            Asked::StepTime { batch, depth } => one(table.step_time(batch, depth).map(bits_of)),
            Asked::HasDraft { depth } => vec![table.has_draft(depth).into()],
            Asked::BatchRange { depth } => two(table.batch_range(depth)),
            Asked::MaxBatch { depth } => one(table.max_batch(depth).map(u64::from)),
            Asked::StepTimeFrac { batch, g } => {
                one(table.step_time_frac(batch, f64::from_bits(g)).map(bits_of))
            }
            Asked::PriceCurve { batch, kv_delta } => {
                let kv_delta = f64::from_bits(kv_delta);
                let price = |depth| match table.step_time(batch, depth) {
                    Some(t) => bits_of((t + kv_delta).max(0.25 * t)),
                    None => f64::INFINITY.to_bits(),
                };
                (0..=64).map(price).collect()
            }
        }
    }
}

/// 1 and the value, or zeros where there is none.
fn one(value: Option<u64>) -> Vec<u64> {
    value.map_or(vec![0, 0], |value| vec![1, value])
}

fn two(values: Option<(u32, u32)>) -> Vec<u64> {
    values.map_or(vec![0, 0, 0], |(low, high)| {
        vec![1, low.into(), high.into()]
    })
}

/// A lookup in a table that is lent.
pub fn lookup(table: &LentTable, asked: Asked) -> WordCase {
    let rows = table.judged();
    let answer = rows.as_deref().map_err(|&number| number);
    let answer = answer.and_then(|rows| {
        let values = asked.by_the_rules(rows)?;
        let rows: Vec<_> = rows
            .iter()
            .map(|row| (row.depth, row.batch, f64::from_bits(row.seconds)))
            .collect();
        let rust = asked.by_the_rust(&probe::of_rows(&rows));
        assert_eq!(values, rust, "{asked:x?} of {table:x?}");
        Ok([vec![0], values].concat())
    });
    let refused = |number: u8| [vec![number.into()], vec![0; asked.width()]].concat();
    let input = [asked.words(), table.words()].concat();
    let gap = |pair: &[u32]| pair[1] > pair[0].saturating_add(1);
    WordCase::new(asked.letter(), input, answer.unwrap_or_else(refused)).with_traits(&[
        ("deep", table.depths.iter().any(|&depth| is_deep(depth))),
        ("with holes", table.depths.windows(2).any(gap)),
    ])
}
