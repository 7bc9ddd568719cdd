//! A whole plan of the proved planner, across its C boundary.
use crate::plans::Drafter;
use crate::storage::Storage;

extern "C" {
    fn bench_plan(
        gamma: u32,
        model: u32,
        alpha: f64,
        policy: u32,
        cooldown: u32,
        cost_ms: f64,
        kind: u32,
        a: f64,
        b: f64,
        c: u32,
        d: u32,
        e: u32,
        worker: u64,
        sequences: u32,
        end: f64,
        peak: f64,
        bw: f64,
        rows: usize,
        depth: u32,
        rounds: u32,
        positions: *const f64,
        positions_length: usize,
        roofline: *const f64,
        roofline_length: usize,
        depths: *const u32,
        depths_length: usize,
        batches: *const u32,
        batches_length: usize,
        seconds: *const f64,
        seconds_length: usize,
        loaded: *const f64,
        loaded_length: usize,
        bank_commits: *const u32,
        bank_commits_length: usize,
        signals: *const f64,
        signals_length: usize,
        bank_curve: *const f64,
        bank_curve_length: usize,
        draws: *const f64,
        draws_length: usize,
        indices: *const u32,
        indices_length: usize,
        storage: *mut u64,
        storage_room: usize,
        drafts: *mut u32,
        drafts_room: usize,
        commits: *mut u32,
        commits_room: usize,
    ) -> u64;
}

/// What the planner is set to: the model (0 a constant, else a trace), the policy by its place in the rules' list, the switch settings with steps of one
/// candidate, and the drafter.
#[derive(Clone, Copy)]
pub struct Settings {
    pub gamma: u32,
    pub model: u32,
    pub alpha: f64,
    pub policy: u32,
    pub cooldown: u32,
    pub cost_ms: f64,
    pub drafter: Drafter,
}

/// The lists that every plan of a day is lent. A table without rows is none.
#[derive(Default)]
pub struct Lent {
    pub roofline: Vec<f64>,
    pub depths: Vec<u32>,
    pub batches: Vec<u32>,
    pub seconds: Vec<f64>,
    pub loaded: Vec<f64>,
    pub depth: u32,
    pub bank_commits: Vec<u32>,
    pub signals: Vec<f64>,
    pub bank_curve: Vec<f64>,
}

/// One plan: whose it is, over how many sequences, when its step ends, and the draws that are left.
pub struct Ask<'a> {
    pub worker: u64,
    pub sequences: usize,
    pub end: f64,
    pub peak: f64,
    pub bw: f64,
    pub draws: &'a [f64],
    pub indices: &'a [u32],
}

/// The buffers of a plan's answer.
pub struct Plans {
    pub drafts: Vec<u32>,
    pub commits: Vec<u32>,
}

impl Plans {
    /// The draws used, with drafts and commits at the fronts of the buffers; 2^64 - 1 where the plan is refused.
    #[rustfmt::skip]
    pub fn plan(&mut self, settings: &Settings, lent: &Lent, ask: &Ask, storage: &mut Storage) -> u64 {
        let Settings { gamma, model, alpha, policy, cooldown, cost_ms, drafter } = *settings;
        let ([a, b], [c, d, e]) = (drafter.sizes, drafter.counts);
        let words = storage.words();
        unsafe {
            bench_plan(
                gamma, model, alpha, policy, cooldown, cost_ms, drafter.kind, a, b, c, d, e,
                ask.worker, ask.sequences as u32, ask.end, ask.peak, ask.bw,
                lent.seconds.len(), lent.depth, lent.bank_commits.len() as u32,
                std::ptr::NonNull::dangling().as_ptr(), 0,
                lent.roofline.as_ptr(), lent.roofline.len(),
                lent.depths.as_ptr(), lent.depths.len(),
                lent.batches.as_ptr(), lent.batches.len(),
                lent.seconds.as_ptr(), lent.seconds.len(),
                lent.loaded.as_ptr(), lent.loaded.len(),
                lent.bank_commits.as_ptr(), lent.bank_commits.len(),
                lent.signals.as_ptr(), lent.signals.len(),
                lent.bank_curve.as_ptr(), lent.bank_curve.len(),
                ask.draws.as_ptr(), ask.draws.len(),
                ask.indices.as_ptr(), ask.indices.len(),
                words.as_mut_ptr(), words.len(),
                self.drafts.as_mut_ptr(), self.drafts.len(),
                self.commits.as_mut_ptr(), self.commits.len(),
            )
        }
    }
}
