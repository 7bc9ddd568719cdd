//! `cost_lookup`: lookups in a cost table that is lent as three columns.
use crate::drawn::tables::table;
use crate::exported::{compare, Answer, Refusal, Told};
use crate::function::{plain, Function};
use crate::lent::Lent;
use crate::turn::Turn;
use numbers::dice::Dice;
use oracle::costs::lent_table::{self, LentTable};
use oracle::costs::lookup_values::{delta, fractional, near};
use oracle::costs::table::Row;

/// The three columns as they are lent, each an address and a length, and how many rows they hold.
macro_rules! exported {
    ($($name:ident($($parameter:ident: $type:ty),*) -> $answer:ty;)*) => {
        unsafe extern "C" {
            $(fn $name(
                depths: *const u32,
                depths_len: usize,
                batches: *const u32,
                batches_len: usize,
                seconds: *const f64,
                seconds_len: usize,
                rows: usize,
                $($parameter: $type),*
            ) -> $answer;)*
        }
    };
}

exported! {
    cost_lookup_table_refusal() -> Refusal;
    cost_lookup_step_time(batch: u32, depth: u32) -> Told;
    cost_lookup_has_draft(depth: u32) -> Told;
    cost_lookup_step_time_frac(batch: u32, g: f64) -> Told;
    cost_lookup_batch_range(depth: u32) -> Told;
    cost_lookup_max_batch(depth: u32) -> Told;
    cost_lookup_price_curve(batch: u32, kv_delta: f64, at: usize) -> Told;
}

/// A call with the columns before what else it is asked with.
macro_rules! asked {
    ($name:ident, $columns:expr $(, $argument:expr)*) => {{
        let Columns { depths, batches, seconds, rows } = $columns;
        let rows = *rows as usize;
        // SAFETY: each address is that of a lent column with so many elements.
        unsafe {
            $name(
                depths.at(),
                depths.len(),
                batches.at(),
                batches.len(),
                seconds.floats(),
                seconds.len(),
                rows,
                $($argument),*
            )
        }
    }};
}

#[derive(Default)]
struct Columns {
    depths: Lent<u32>,
    batches: Lent<u32>,
    seconds: Lent<u64>,
    rows: u64,
}

/// What a lookup is asked with; each uses some of it.
#[derive(Clone, Copy, Debug)]
struct Question {
    batch: u32,
    depth: u32,
    g: u64,
    kv_delta: u64,
    at: usize,
}

impl Question {
    fn drawn(table: &LentTable, dice: &mut Dice) -> Question {
        Question {
            batch: near(&table.batches, dice),
            depth: near(&table.depths, dice),
            g: fractional(table, dice),
            kv_delta: delta(dice),
            at: match dice.below(8) {
                0 => dice.pick(&[64, 65, usize::MAX]),
                1 => dice.between(0, 64),
                _ => near(&table.depths, dice) as usize,
            },
        }
    }
}

fn lookup<A: Answer>(
    name: &'static str,
    call: fn(&Columns, Question) -> A,
    define: fn(Result<&[Row], u8>, Question) -> A,
) -> Box<dyn Function> {
    let mut columns = Columns::default();
    plain(name, &[11, 15, 16], move |turn: &mut Turn| {
        let table = table(turn);
        let question = Question::drawn(&table, &mut turn.dice);
        columns.rows = table.rows;
        turn.tell("rows", table.rows);
        turn.tell("asked", question);
        turn.lend("depths", &mut columns.depths, &table.depths);
        turn.lend("batches", &mut columns.batches, &table.batches);
        turn.lend("seconds", &mut columns.seconds, &table.seconds);
        let answered = call(&columns, question);
        let rows = table.judged();
        let rows = rows.as_deref().map_err(|&number| number);
        let is_held = table.depths.contains(&question.depth);
        let shape = if is_held {
            "of a depth held"
        } else {
            "of another"
        };
        turn.shape = rows.is_ok().then_some(shape);
        compare(turn, answered, define(rows, question));
        turn.left("depths", &columns.depths, &table.depths);
        turn.left("batches", &columns.batches, &table.batches);
        turn.left("seconds", &columns.seconds, &table.seconds);
    })
}

/// The answer over the rows of a table that is not refused.
fn over(rows: Result<&[Row], u8>, answer: impl Fn(&[Row]) -> Told) -> Told {
    rows.map_or_else(Told::refused, answer)
}

/// 1 and the value, or zeros.
fn maybe(value: Option<u64>) -> Told {
    value.map_or(Told::default(), |value| Told::of(1, value))
}

pub fn functions() -> Vec<Box<dyn Function>> {
    let groups = [of_times(), of_prices(), of_batches()];
    groups.into_iter().flatten().collect()
}

fn of_times() -> Vec<Box<dyn Function>> {
    vec![
        lookup(
            "cost_lookup_step_time",
            |columns, q| asked!(cost_lookup_step_time, columns, q.batch, q.depth),
            |rows, q| {
                over(rows, |rows| {
                    maybe(lent_table::step_time(rows, q.batch, q.depth))
                })
            },
        ),
        lookup(
            "cost_lookup_step_time_frac",
            |columns, q| {
                let g = f64::from_bits(q.g);
                asked!(cost_lookup_step_time_frac, columns, q.batch, g)
            },
            |rows, q| {
                over(rows, |rows| {
                    maybe(lent_table::step_time_frac(rows, q.batch, q.g))
                })
            },
        ),
    ]
}

fn of_prices() -> Vec<Box<dyn Function>> {
    vec![
        lookup(
            "cost_lookup_table_refusal",
            |columns, _| asked!(cost_lookup_table_refusal, columns),
            |rows, _| Refusal::of(rows),
        ),
        lookup(
            "cost_lookup_price_curve",
            |columns, q| {
                let kv_delta = f64::from_bits(q.kv_delta);
                asked!(cost_lookup_price_curve, columns, q.batch, kv_delta, q.at)
            },
            |rows, q| {
                let prices =
                    rows.and_then(|rows| lent_table::price_curve(rows, q.batch, q.kv_delta));
                Told::one(prices.map(|prices| prices.get(q.at).copied().unwrap_or(0)))
            },
        ),
    ]
}

fn of_batches() -> Vec<Box<dyn Function>> {
    vec![
        lookup(
            "cost_lookup_has_draft",
            |columns, q| asked!(cost_lookup_has_draft, columns, q.depth),
            |rows, q| {
                over(rows, |rows| {
                    let has = rows.iter().any(|row| row.depth == q.depth);
                    Told::of(has.into(), 0)
                })
            },
        ),
        lookup(
            "cost_lookup_batch_range",
            |columns, q| asked!(cost_lookup_batch_range, columns, q.depth),
            |rows, q| {
                over(rows, |rows| {
                    let range = lent_table::batch_range(rows, q.depth);
                    range.map_or(Told::default(), |(first, last)| {
                        Told::of(1 + u64::from(first), last.into())
                    })
                })
            },
        ),
        lookup(
            "cost_lookup_max_batch",
            |columns, q| asked!(cost_lookup_max_batch, columns, q.depth),
            |rows, q| {
                over(rows, |rows| {
                    maybe(lent_table::batch_range(rows, q.depth).map(|(_, last)| last.into()))
                })
            },
        ),
    ]
}
