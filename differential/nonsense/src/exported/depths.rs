//! `goodput` without chains: the total cost of a depth, and the best depth of expected values.
use crate::drawn::batches::batch;
use crate::drawn::drafters::Crossing;
use crate::exported::batches::{rates, Buffers};
use crate::exported::{compare, Told};
use crate::function::{plain, Function};
use crate::lent::Lent;
use crate::turn::Turn;
use oracle::drafter_values::SPECIALS;
use oracle::plans::batch::Batch;
use oracle::plans::batches;
use oracle::plans::priced::{Asked, Priced};

// Of each list the address of a lent buffer and its length.
unsafe extern "C" {
    fn goodput_total_cost(
        kind: u32,
        p: f64,
        q: f64,
        x: u32,
        y: u32,
        z: u32,
        g: u32,
        n: u32,
        peak: f64,
        bw: f64,
        kv_delta: f64,
        verify: f64,
        loaded: *const f64,
        loaded_len: usize,
    ) -> Told;
    fn goodput_best_depth(
        expected: *const f64,
        expected_len: usize,
        curve: *const f64,
        curve_len: usize,
        gamma: u32,
        n: u32,
        kind: u32,
        p: f64,
        q: f64,
        x: u32,
        y: u32,
        z: u32,
        peak: f64,
        bw: f64,
        kv_delta: f64,
        loaded: *const f64,
        loaded_len: usize,
    ) -> Told;
}

pub fn functions() -> Vec<Box<dyn Function>> {
    vec![total_cost(), best_depth()]
}

/// A batch's drafter, rates and experts, with another number of sequences at times.
fn priced(batch: &Batch, asked: Asked, turn: &mut Turn) -> Priced {
    let n = match turn.dice.below(16) {
        0 => turn.dice.pick(&[1024, 1025, u32::MAX]),
        _ => batch.n() as u32,
    };
    Priced {
        drafter: batch.drafter,
        rates: batch.rates,
        gamma: batch.gamma,
        n,
        loaded: batch.loaded.clone(),
        asked,
    }
}

fn total_cost() -> Box<dyn Function> {
    let mut lent = Buffers::default();
    plain("goodput_total_cost", &[11, 12, 15, 16], move |turn| {
        let batch = batch(|batch| batch.n(), turn);
        let verify = match (batch.curve.last(), turn.dice.below(4)) {
            (Some(&price), 1..) => price,
            _ => turn.dice.pick(SPECIALS),
        };
        let priced = priced(&batch, Asked::Total { verify }, turn);
        let c = Crossing::of(batch.drafter, &mut turn.dice);
        lent.lend(&batch, turn);
        turn.tell("n and verify", (priced.n, verify));
        let ([peak, bw, kv_delta], price) = (rates(&batch), f64::from_bits(verify));
        let (g, n, loaded, len) = (
            priced.gamma,
            priced.n,
            lent.loaded.floats(),
            lent.loaded.len(),
        );
        // SAFETY: the address is that of a lent buffer with so many elements.
        let answered = unsafe {
            goodput_total_cost(
                c.kind, c.p, c.q, c.x, c.y, c.z, g, n, peak, bw, kv_delta, price, loaded, len,
            )
        };
        compare(turn, answered, Told::one(priced.total_seconds(verify)));
        lent.left(&batch, turn);
    })
}

fn best_depth() -> Box<dyn Function> {
    let (mut lent, mut values) = (Buffers::default(), Lent::new());
    plain("goodput_best_depth", &[11, 12, 15, 16], move |turn| {
        let batch = batch(|batch| batch.n(), turn);
        let expected = batches::expected(batch.curve.len(), batch.n(), &mut turn.dice);
        let curve = batch.curve.clone();
        let asked = Asked::Best {
            expected: expected.clone(),
            curve,
        };
        let priced = priced(&batch, asked, turn);
        let c = Crossing::of(batch.drafter, &mut turn.dice);
        lent.lend(&batch, turn);
        turn.lend("expected", &mut values, &expected);
        turn.tell("n", priced.n);
        let [peak, bw, kv_delta] = rates(&batch);
        let (es, es_len) = (values.floats(), values.len());
        let (curve, len) = (lent.curve.floats(), lent.curve.len());
        let (loaded, experts) = (lent.loaded.floats(), lent.loaded.len());
        let (gamma, n) = (priced.gamma, priced.n);
        // SAFETY: each address is that of a lent buffer with so many elements.
        let answered = unsafe {
            goodput_best_depth(
                es, es_len, curve, len, gamma, n, c.kind, c.p, c.q, c.x, c.y, c.z, peak, bw,
                kv_delta, loaded, experts,
            )
        };
        let defined = priced.best_depth(&expected, &batch.curve);
        compare(turn, answered, Told::one(defined.map(u64::from)));
        turn.left("expected", &values, &expected);
        lent.left(&batch, turn);
    })
}
