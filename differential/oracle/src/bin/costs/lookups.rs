//! What is asked of tables that are lent.
use crate::tables::Asked;
use numbers::dice::Dice;
use oracle::costs::lent_table::LentTable;
use oracle::costs::lookup_values::{delta, fractional, near};

/// Any of the questions, near what the table holds or far from it.
pub fn random_question(table: &LentTable, dice: &mut Dice) -> Asked {
    let batch = near(&table.batches, dice);
    let depth = near(&table.depths, dice);
    match dice.below(16) {
        0 => Asked::Refusal,
        1..=5 => Asked::StepTime { batch, depth },
        6 => Asked::HasDraft { depth },
        7 | 8 => Asked::BatchRange { depth },
        9 => Asked::MaxBatch { depth },
        10 => Asked::PriceCurve {
            batch,
            kv_delta: delta(dice),
        },
        _ => Asked::StepTimeFrac {
            batch,
            g: fractional(table, dice),
        },
    }
}
