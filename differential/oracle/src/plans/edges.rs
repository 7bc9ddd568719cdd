//! Batches at an edge: a survival that is moved to where it decides, so that one bit of a price is enough
//! to choose otherwise.
use crate::drafter_values::ONE;
use crate::plans::batch::{Asked, Batch};
use crate::plans::gate::Chosen;
use numbers::dice::Dice;

/// What the gate chooses that is asked.
fn choice(batch: &Batch, asked: Asked) -> Option<Chosen> {
    let chosen = match asked {
        Asked::Ragged(mode) => batch.chosen(mode, |gate| gate.ragged()),
        Asked::Block(mode) => batch.chosen(mode, |gate| gate.block()),
        _ => return None,
    };
    chosen.ok()
}

/// How many survivals are tried.
const TRIES: usize = 6;

/// Moves one of the survivals to the last bits before the choice is another, or to the first behind
/// them, where the best depth is the same on both sides. Where no such one is found the batch stays as it is.
pub fn sharpen(batch: &mut Batch, asked: Asked, dice: &mut Dice) {
    for _ in 0..TRIES.min(batch.chains.rows.len()) {
        let at = dice.between(0, batch.chains.rows.len() - 1);
        let held = batch.chains.rows[at];
        let Some(edge) = edge(batch, asked, at) else {
            batch.chains.rows[at] = held;
            continue;
        };
        let depths = edge.map(|bits| {
            batch.chains.rows[at] = bits;
            batch.best_depth()
        });
        if depths[0] == depths[1] {
            batch.chains.rows[at] = dice.pick(&edge);
            return;
        }
        batch.chains.rows[at] = held;
    }
}

/// Neighbours between which the choice changes, where it is not the same for 0 and for 1.
fn edge(batch: &mut Batch, asked: Asked, at: usize) -> Option<[u64; 2]> {
    let mut with = |bits: u64| {
        batch.chains.rows[at] = bits;
        choice(batch, asked)
    };
    let (mut low, mut high) = (0, ONE);
    let first = with(low);
    if first == with(high) {
        return None;
    }
    while high - low > 1 {
        let middle = low + (high - low) / 2;
        if with(middle) == first {
            low = middle;
        } else {
            high = middle;
        }
    }
    Some([low, high])
}

/// Prices that rise by nearly as much at each depth as the first one is, and survivals near 1: what is
/// added to a measured price is then no small part of the sum.
pub fn steepen(batch: &mut Batch, dice: &mut Dice) {
    let mut part = || dice.between(1, 1 << 20) as f64 / f64::from(1 << 20);
    let start = part();
    let rise = start * (0.5 + part() / 2.0);
    let prices = (0..batch.curve.len()).map(|d| start + rise * d as f64);
    batch.curve = prices.map(f64::to_bits).collect();
    for slot in &mut batch.chains.rows {
        *slot = (1.0 - part() / 4.0).to_bits();
    }
}

#[cfg(test)]
mod tests {
    use super::*;
    use crate::plans::made::{bits, drafters, plain};
    use crate::plans::verify_price::Mode;

    /// One sequence of two slots: whether the second is given back turns between two neighbours.
    #[test]
    fn a_survival_is_moved_to_where_it_decides() {
        let asked = Asked::Ragged(Mode::Bridged);
        let prices = [1.5, f64::INFINITY, 2.0];
        let [fraction, ..] = drafters();
        let mut batch = plain(fraction, &[bits(&[1.0, 0.5])], &prices);
        let mut dice = Dice::new(1);
        while batch.chains.rows[1] == 0.5f64.to_bits() {
            batch.chains.rows[0] = ONE;
            sharpen(&mut batch, asked, &mut dice);
        }
        let edge = batch.chains.rows[1];
        let drafted = |bits: u64| {
            let mut batch = batch.clone();
            batch.chains.rows[1] = bits;
            choice(&batch, asked)
        };
        assert_ne!(drafted(edge - 1), drafted(edge + 1));
    }
}
