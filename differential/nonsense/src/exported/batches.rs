//! `goodput` over a batch of chains: its expected acceptance, and its best depth.
use crate::drawn::batches::batch;
use crate::drawn::drafters::Crossing;
use crate::exported::expected::{drawn_out, written};
use crate::exported::{compare, Refusal, Told};
use crate::function::{plain, Function};
use crate::lent::Lent;
use crate::turn::Turn;
use oracle::plans::batch::Batch;

// Of each list the address of a lent buffer and its length.
unsafe extern "C" {
    fn goodput_expected_by_depth(
        chains: *const f64,
        chains_len: usize,
        lengths: *const u32,
        lengths_len: usize,
        gamma: u32,
        out: *mut f64,
        room: usize,
    ) -> Refusal;
    fn goodput_aggregate_depth(
        chains: *const f64,
        chains_len: usize,
        lengths: *const u32,
        lengths_len: usize,
        curve: *const f64,
        curve_len: usize,
        gamma: u32,
        kind: u32,
        p: f64,
        q: f64,
        x: u32,
        y: u32,
        z: u32,
        peak: f64,
        bw: f64,
        kv_delta: f64,
        loaded: *const f64,
        loaded_len: usize,
    ) -> Told;
}

pub fn functions() -> Vec<Box<dyn Function>> {
    vec![expected_by_depth(), aggregate_depth()]
}

/// The buffers of a batch.
#[derive(Default)]
pub struct Buffers {
    pub chains: Lent<u64>,
    pub lengths: Lent<u32>,
    pub curve: Lent<u64>,
    pub loaded: Lent<u64>,
}

impl Buffers {
    pub fn lend(&mut self, batch: &Batch, turn: &mut Turn) {
        turn.tell("drafter", batch.drafter);
        turn.tell("rates", batch.rates);
        turn.tell("gamma", batch.gamma);
        turn.lend("chains", &mut self.chains, &batch.chains.rows);
        turn.lend("lengths", &mut self.lengths, &batch.lengths);
        turn.lend("curve", &mut self.curve, &batch.curve);
        turn.lend("loaded", &mut self.loaded, &batch.loaded);
    }

    /// All of them are lent to be read.
    pub fn left(&self, batch: &Batch, turn: &mut Turn) {
        turn.left("chains", &self.chains, &batch.chains.rows);
        turn.left("lengths", &self.lengths, &batch.lengths);
        turn.left("curve", &self.curve, &batch.curve);
        turn.left("loaded", &self.loaded, &batch.loaded);
    }
}

/// Peak, bw and kv_delta.
pub fn rates(batch: &Batch) -> [f64; 3] {
    let rates = batch.rates;
    [rates.peak, rates.bw, rates.kv_delta].map(f64::from_bits)
}

fn expected_by_depth() -> Box<dyn Function> {
    let (mut lent, mut out) = (Buffers::default(), Lent::new());
    plain("goodput_expected_by_depth", &[11, 15, 16], move |turn| {
        let mut batch = batch(|batch| batch.n(), turn);
        let left = drawn_out(batch.gamma, turn);
        batch.room = left.len();
        lent.lend(&batch, turn);
        turn.lend("out", &mut out, &left);
        let (chains, slots) = (lent.chains.floats(), lent.chains.len());
        let (lengths, n) = (lent.lengths.at(), lent.lengths.len());
        let (room, len) = (out.floats_mut(), out.len());
        // SAFETY: each address is that of a lent buffer with so many elements.
        let answered =
            unsafe { goodput_expected_by_depth(chains, slots, lengths, n, batch.gamma, room, len) };
        written(turn, answered, &out, left, batch.expected_values());
        lent.left(&batch, turn);
    })
}

fn aggregate_depth() -> Box<dyn Function> {
    let mut lent = Buffers::default();
    plain("goodput_aggregate_depth", &[11, 12, 15, 16], move |turn| {
        let batch = batch(|batch| batch.n(), turn);
        let c = Crossing::of(batch.drafter, &mut turn.dice);
        lent.lend(&batch, turn);
        let [peak, bw, kv_delta] = rates(&batch);
        let (chains, slots) = (lent.chains.floats(), lent.chains.len());
        let (lengths, n) = (lent.lengths.at(), lent.lengths.len());
        let (curve, len) = (lent.curve.floats(), lent.curve.len());
        let (loaded, experts) = (lent.loaded.floats(), lent.loaded.len());
        // SAFETY: each address is that of a lent buffer with so many elements.
        let answered = unsafe {
            goodput_aggregate_depth(
                chains,
                slots,
                lengths,
                n,
                curve,
                len,
                batch.gamma,
                c.kind,
                c.p,
                c.q,
                c.x,
                c.y,
                c.z,
                peak,
                bw,
                kv_delta,
                loaded,
                experts,
            )
        };
        compare(turn, answered, Told::one(batch.best_depth().map(u64::from)));
        lent.left(&batch, turn);
    })
}
