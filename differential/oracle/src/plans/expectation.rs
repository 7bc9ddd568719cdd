//! Cases of the expected acceptance of n sequences at each depth, of a model and of a bank's curve.
use crate::drafter::{MOST_GAMMA, MOST_SEQUENCES};
use crate::model::Model;
use crate::plans::batch::FLOAT_BEFORE;
use crate::plans::unchanged;
use crate::range::in_range;
use numbers::word_case::{bits_of, listed, WordCase};

/// The values are over the front of the room; a refusal leaves what was there.
fn answer(values: Result<Vec<u64>, u8>, room: usize) -> Vec<u64> {
    let mut answer = match values {
        Ok(values) => [vec![0], values].concat(),
        Err(number) => vec![number.into()],
    };
    answer.resize(1 + room, FLOAT_BEFORE);
    answer
}

/// Of a model, with n sequences and so many slots for the values.
pub fn of_model(model: &Model, n: u32, room: usize) -> WordCase {
    let values = model_values(model, n, room);
    if let Ok(values) = &values {
        assert_eq!(*values, unchanged::model_expected(model, n), "{model:x?}");
    }
    let sizes = [model.gamma, n].map(u64::from);
    let input = [
        &[model.kind as u64, model.alpha][..],
        &sizes,
        &[room as u64],
        &listed(model.positions.iter().copied()),
    ];
    WordCase::new(b'm', input.concat(), answer(values, room))
}

/// The bits of the values of a model; 12 and 11 as a model gives them, 11 for n, then 16.
pub fn model_values(model: &Model, n: u32, room: usize) -> Result<Vec<u64>, u8> {
    model.expected()?;
    if n as usize > MOST_SEQUENCES {
        return Err(11);
    }
    if room <= model.gamma as usize {
        return Err(16);
    }
    let at = |gamma| {
        let model = Model {
            gamma,
            ..model.clone()
        };
        let expected = model.expected()?;
        Ok(bits_of(f64::from(n) * f64::from_bits(expected)))
    };
    (0..=model.gamma).map(at).collect()
}

/// Of a bank's curve and depth.
pub fn of_bank(curve: &[u64], depth: u32, gamma: u32, n: u32, room: usize) -> WordCase {
    let values = bank_values(curve, depth, gamma, n, room);
    if let Ok(values) = &values {
        let rust = unchanged::bank_expected(curve, depth, gamma, n);
        assert_eq!(*values, rust, "{curve:x?} {depth} {gamma} {n}");
    }
    let sizes = [depth, 0, gamma, n].map(u64::from);
    let input = [&sizes[..], &[room as u64], &listed(curve.iter().copied())];
    WordCase::new(b'b', input.concat(), answer(values, room))
}

/// The bits of the values of a bank; 11, then 16, then 15.
pub fn bank_values(
    curve: &[u64],
    depth: u32,
    gamma: u32,
    n: u32,
    room: usize,
) -> Result<Vec<u64>, u8> {
    let are_sizes = (1..=64).contains(&depth) && gamma <= MOST_GAMMA;
    if !are_sizes || n as usize > MOST_SEQUENCES {
        return Err(11);
    }
    let used = gamma.min(depth) as usize + 1;
    if curve.len() < used || room <= gamma as usize {
        return Err(16);
    }
    if !curve[..used].iter().all(|&e| in_range(e, 0.0, 64.0)) {
        return Err(15);
    }
    let at = |g: u32| f64::from(n) * f64::from_bits(curve[g.min(depth) as usize]);
    Ok((0..=gamma).map(|g| bits_of(at(g))).collect())
}
