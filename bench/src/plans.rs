//! The proved library of a plan's parts, across its C boundary: batches with their drafter.

extern "C" {
    fn bench_expected(
        chains: *const f64,
        chains_length: usize,
        lengths: *const u32,
        lengths_length: usize,
        gamma: u32,
        out: *mut f64,
        out_room: usize,
    ) -> u64;

    fn bench_depth(
        expected: *const f64,
        expected_length: usize,
        curve: *const f64,
        curve_length: usize,
        gamma: u32,
        n: u32,
        kind: u32,
        a: f64,
        b: f64,
        c: u32,
        d: u32,
        e: u32,
        peak: f64,
        bw: f64,
        loaded: *const f64,
        loaded_length: usize,
    ) -> u32;

    fn bench_ragged(
        chains: *const f64,
        chains_length: usize,
        lengths: *const u32,
        lengths_length: usize,
        curve: *const f64,
        curve_length: usize,
        gamma: u32,
        mode: u32,
        kind: u32,
        a: f64,
        b: f64,
        c: u32,
        d: u32,
        e: u32,
        peak: f64,
        bw: f64,
        loaded: *const f64,
        loaded_length: usize,
        widths: *mut u32,
        widths_room: usize,
    ) -> u64;

    fn bench_block(
        chains: *const f64,
        chains_length: usize,
        lengths: *const u32,
        lengths_length: usize,
        curve: *const f64,
        curve_length: usize,
        gamma: u32,
        mode: u32,
        kind: u32,
        a: f64,
        b: f64,
        c: u32,
        d: u32,
        e: u32,
        peak: f64,
        bw: f64,
        loaded: *const f64,
        loaded_length: usize,
        widths: *mut u32,
        widths_room: usize,
    ) -> u64;
}

type GateCall = unsafe extern "C" fn(
    *const f64,
    usize,
    *const u32,
    usize,
    *const f64,
    usize,
    u32,
    u32,
    u32,
    f64,
    f64,
    u32,
    u32,
    u32,
    f64,
    f64,
    *const f64,
    usize,
    *mut u32,
    usize,
) -> u64;

/// The price modes as they cross: between depths by the two around, measured or not, or by the nearest measured ones.
pub const DEFAULT: u32 = 0;
pub const BRIDGED: u32 = 1;

/// The slots of a sequence's chain.
pub const SLOTS: usize = 64;

/// A drafter as it crosses: its kind (0 a fraction, 1 an autoregressive head, else a block head), its sizes and its counts.
#[derive(Clone, Copy)]
pub struct Drafter {
    pub kind: u32,
    pub sizes: [f64; 2],
    pub counts: [u32; 3],
}

/// What drafts are priced with: the peak and the bandwidth, and the routed experts that each number of sequences loads.
pub struct Rates<'a> {
    pub peak: f64,
    pub bw: f64,
    pub loaded: &'a [f64],
}

/// A batch as it crosses: 64 slots a sequence, a length each, and a price for each depth.
pub struct Batch {
    pub slots: Vec<f64>,
    pub lengths: Vec<u32>,
    pub curve: Vec<f64>,
}

/// Writes the expected acceptance at the depths 0 to gamma; answers the number of the refusal, 0 for none.
pub fn expected(batch: &Batch, gamma: u32, out: &mut [f64]) -> u64 {
    unsafe {
        bench_expected(
            batch.slots.as_ptr(),
            batch.slots.len(),
            batch.lengths.as_ptr(),
            batch.lengths.len(),
            gamma,
            out.as_mut_ptr(),
            out.len(),
        )
    }
}

/// The best depth; 2^32 - 1 where it is refused.
pub fn depth(
    expected: &[f64],
    curve: &[f64],
    gamma: u32,
    n: u32,
    drafter: &Drafter,
    rates: &Rates,
) -> u32 {
    let (&[a, b], &[c, d, e]) = (&drafter.sizes, &drafter.counts);
    unsafe {
        bench_depth(
            expected.as_ptr(),
            expected.len(),
            curve.as_ptr(),
            curve.len(),
            gamma,
            n,
            drafter.kind,
            a,
            b,
            c,
            d,
            e,
            rates.peak,
            rates.bw,
            rates.loaded.as_ptr(),
            rates.loaded.len(),
        )
    }
}

/// The slots that the ragged gate weighed, with the widths at the front of `widths`; 2^64 - 1 where it is refused.
pub fn ragged(
    batch: &Batch,
    gamma: u32,
    mode: u32,
    drafter: &Drafter,
    rates: &Rates,
    widths: &mut [u32],
) -> u64 {
    gated(bench_ragged, batch, gamma, mode, drafter, rates, widths)
}

/// The same of the block gate.
pub fn block(
    batch: &Batch,
    gamma: u32,
    mode: u32,
    drafter: &Drafter,
    rates: &Rates,
    widths: &mut [u32],
) -> u64 {
    gated(bench_block, batch, gamma, mode, drafter, rates, widths)
}

fn gated(
    gate: GateCall,
    batch: &Batch,
    gamma: u32,
    mode: u32,
    drafter: &Drafter,
    rates: &Rates,
    widths: &mut [u32],
) -> u64 {
    let (&[a, b], &[c, d, e]) = (&drafter.sizes, &drafter.counts);
    unsafe {
        gate(
            batch.slots.as_ptr(),
            batch.slots.len(),
            batch.lengths.as_ptr(),
            batch.lengths.len(),
            batch.curve.as_ptr(),
            batch.curve.len(),
            gamma,
            mode,
            drafter.kind,
            a,
            b,
            c,
            d,
            e,
            rates.peak,
            rates.bw,
            rates.loaded.as_ptr(),
            rates.loaded.len(),
            widths.as_mut_ptr(),
            widths.len(),
        )
    }
}
