//! Reaches the private items of `compute/measured.rs`, as its child module.
#![warn(clippy::all)]
use super::*;

/// Reads a table's text without a file.
pub fn parse(text: &str) -> Result<MeasuredCostTable, String> {
    MeasuredCostTable::parse(text)
}

/// (draft depth, batch, seconds) of every kept row, by depth and then in the table's order.
pub fn rows(table: &MeasuredCostTable) -> Vec<(u32, u32, f64)> {
    table
        .by_draft
        .iter()
        .flat_map(|(&depth, rows)| rows.iter().map(move |&(batch, secs)| (depth, batch, secs)))
        .collect()
}

/// A table of rows that are held already, as they stand.
pub fn of_rows(rows: &[(u32, u32, f64)]) -> MeasuredCostTable {
    let mut by_draft: BTreeMap<u32, Vec<(u32, f64)>> = BTreeMap::new();
    for &(depth, batch, secs) in rows {
        by_draft.entry(depth).or_default().push((batch, secs));
    }
    MeasuredCostTable { by_draft }
}
