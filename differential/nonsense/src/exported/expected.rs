//! What of a batch is expected, and its prices: the bank's and the models' curves, survival chains and
//! the curve in force.
use crate::drawn::drafters::{gamma, sequences};
use crate::drawn::floats::float;
use crate::drawn::models::{about, curve, depth, model};
use crate::drawn::texts::place;
use crate::exported::{compare, Refusal, Told};
use crate::function::{plain, Function};
use crate::lent::Lent;
use crate::readings::floats::one_nan;
use crate::turn::{Mixture, Turn};
use oracle::plans::batches::chance;
use oracle::plans::chains::SLOTS;
use oracle::plans::expectation::{bank_values, model_values};
use oracle::plans::signal::chain;
use oracle::range::in_range;

// Of each list the address of a lent buffer and its length.
unsafe extern "C" {
    fn bank_expected_accepted(curve: *const f64, len: usize, depth: u32, gamma: u32) -> Told;
    fn goodput_model_expected(
        model: u32,
        alpha: f64,
        positions: *const f64,
        len: usize,
        gamma: u32,
        n: u32,
        out: *mut f64,
        room: usize,
    ) -> Refusal;
    fn goodput_bank_expected(
        curve: *const f64,
        len: usize,
        depth: u32,
        gamma: u32,
        n: u32,
        out: *mut f64,
        room: usize,
    ) -> Refusal;
    fn goodput_survival_chain(signal: *const f64, len: usize, length: usize, at: usize) -> Told;
    fn goodput_curve(
        roofline: *const f64,
        roofline_len: usize,
        measured: *const f64,
        measured_len: usize,
        source: u32,
        gamma: usize,
        at: usize,
    ) -> Told;
}

pub fn functions() -> Vec<Box<dyn Function>> {
    vec![
        expected_accepted(),
        model_expected(),
        bank_expected(),
        survival_chain(),
        curve_in_force(),
    ]
}

/// The entry at gamma, or at the depth where gamma is above it; 11, then 16, then 15.
fn entry(curve: &[u64], depth: u32, gamma: u32) -> Result<u64, u8> {
    if !(1..=64).contains(&depth) || gamma > 64 {
        return Err(11);
    }
    let entry = *curve.get(gamma.min(depth) as usize).ok_or(16)?;
    if in_range(entry, 0.0, 64.0) {
        Ok(entry)
    } else {
        Err(15)
    }
}

fn expected_accepted() -> Box<dyn Function> {
    let mut lent = Lent::new();
    plain("bank_expected_accepted", &[11, 15, 16], move |turn| {
        let (depth, gamma) = (depth(turn), gamma(turn));
        let used = gamma.min(depth).min(70) as usize + 1;
        let curve = curve(about(used, turn), turn);
        turn.tell("depth and gamma", (depth, gamma));
        turn.lend("curve", &mut lent, &curve);
        let answered = unsafe { bank_expected_accepted(lent.floats(), lent.len(), depth, gamma) };
        compare(turn, answered, Told::one(entry(&curve, depth, gamma)));
        turn.left("curve", &lent, &curve);
    })
}

/// The values over the front of what is lent, or the refusal and nothing written.
pub fn written(
    turn: &mut Turn,
    answered: Refusal,
    out: &Lent<u64>,
    mut left: Vec<u64>,
    values: Result<Vec<u64>, u8>,
) {
    let count = values.as_ref().map_or(0, Vec::len);
    if let Ok(values) = &values {
        left[..count].copy_from_slice(values);
    }
    compare(turn, answered, Refusal::of(values));
    turn.left_floats("out", out, &left, count);
}

/// Room for the values of the depths 0 to gamma, or about as much, with anything in it.
pub fn drawn_out(gamma: u32, turn: &mut Turn) -> Vec<u64> {
    let slots = about(gamma.min(70) as usize + 1, turn);
    (0..slots).map(|_| turn.dice.bits()).collect()
}

fn model_expected() -> Box<dyn Function> {
    let (mut positions, mut out) = (Lent::new(), Lent::new());
    plain("goodput_model_expected", &[11, 12, 16], move |turn| {
        let (model, n) = (model(turn), sequences(turn));
        let left = drawn_out(model.gamma, turn);
        turn.tell("model and n", (model.kind, model.alpha, model.gamma, n));
        turn.lend("positions", &mut positions, &model.positions);
        turn.lend("out", &mut out, &left);
        let (kind, alpha) = (model.kind as u32, f64::from_bits(model.alpha));
        let (at, len) = (positions.floats(), positions.len());
        let (room, slots) = (out.floats_mut(), out.len());
        let answered =
            unsafe { goodput_model_expected(kind, alpha, at, len, model.gamma, n, room, slots) };
        let values = model_values(&model, n, left.len());
        written(turn, answered, &out, left, values);
        turn.left("positions", &positions, &model.positions);
    })
}

fn bank_expected() -> Box<dyn Function> {
    let (mut lent, mut out) = (Lent::new(), Lent::new());
    plain("goodput_bank_expected", &[11, 15, 16], move |turn| {
        let (depth, gamma, n) = (depth(turn), gamma(turn), sequences(turn));
        let used = gamma.min(depth).min(70) as usize + 1;
        let curve = curve(about(used, turn), turn);
        let left = drawn_out(gamma, turn);
        turn.tell("depth, gamma and n", (depth, gamma, n));
        turn.lend("curve", &mut lent, &curve);
        turn.lend("out", &mut out, &left);
        let (at, len) = (lent.floats(), lent.len());
        let (room, slots) = (out.floats_mut(), out.len());
        let answered = unsafe { goodput_bank_expected(at, len, depth, gamma, n, room, slots) };
        let values = bank_values(&curve, depth, gamma, n, left.len());
        written(turn, answered, &out, left, values);
        turn.left("curve", &lent, &curve);
    })
}

/// Confidences: chances, finite floats of any size, or any floats.
fn drawn_signal(turn: &mut Turn) -> Vec<u64> {
    let count = match turn.dice.below(8) {
        0 => turn.dice.between(62, 70),
        1 => turn.dice.between(0, 64),
        _ => turn.dice.between(0, 8),
    };
    let is_wild = turn.mixture == Mixture::Random && turn.dice.once_in(2);
    let confidence = |turn: &mut Turn| match turn.dice.below(16) {
        0 if turn.mixture != Mixture::Good => float(turn),
        1 => ((turn.dice.below(400) as f64 - 100.0) / 100.0).to_bits(),
        _ if is_wild => turn.dice.bits(),
        _ => chance(&mut turn.dice),
    };
    (0..count).map(|_| confidence(turn)).collect()
}

fn survival_chain() -> Box<dyn Function> {
    let mut lent = Lent::new();
    plain("goodput_survival_chain", &[11, 15], move |turn| {
        let signal = drawn_signal(turn);
        let length = match turn.dice.below(3) {
            0 => place(signal.len(), &mut turn.dice),
            _ => signal.len(),
        };
        let at = place(length.min(64), &mut turn.dice);
        turn.tell("length and place", (length, at));
        turn.lend("signal", &mut lent, &signal);
        let answered = unsafe { goodput_survival_chain(lent.floats(), lent.len(), length, at) };
        let mut slots = signal.clone();
        slots.resize(SLOTS, 0);
        let chain = chain(&slots, length as u64);
        let slot = chain.map(|chain| chain.get(at).copied().unwrap_or(0));
        compare(turn, answered, Told::one(slot));
        turn.left("signal", &lent, &signal);
    })
}

fn curve_in_force() -> Box<dyn Function> {
    let mut lent = [Lent::new(), Lent::new()];
    plain("goodput_curve", &[], move |turn| {
        let lists: [Vec<u64>; 2] = [0; 2].map(|_| {
            let count = turn.dice.between(0, 9);
            (0..count).map(|_| float(turn)).collect()
        });
        let source = turn.dice.below(2) as usize;
        let [gamma, at] = [0; 2].map(|_| place(lists[source].len(), &mut turn.dice));
        turn.tell("source, gamma and place", (source, gamma, at));
        for (lent, list) in lent.iter_mut().zip(&lists) {
            turn.lend("prices", lent, list);
        }
        let [a, b] = &lent;
        let (first, n, second, m) = (a.floats(), a.len(), b.floats(), b.len());
        let answered = unsafe { goodput_curve(first, n, second, m, source as u32, gamma, at) };
        let count = lists[source].len().min(gamma.saturating_add(1));
        let price = lists[source][..count].get(at).copied().unwrap_or(0);
        compare(turn, answered, Told::of(count as u64, one_nan(price)));
        for (lent, list) in lent.iter().zip(&lists) {
            turn.left("prices", lent, list);
        }
    })
}
