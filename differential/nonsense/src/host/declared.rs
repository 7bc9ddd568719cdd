//! The library that a host links, as include/latchmeander.h declares it.

#[repr(C)]
#[derive(Clone, Copy, Debug, Default)]
pub struct Settings {
    pub alpha: f64,
    pub cost_ms: f64,
    pub frac: f64,
    pub dense_params: f64,
    pub expert_params: f64,
    pub params: f64,
    pub gamma: u32,
    pub policy: u32,
    pub model: u32,
    pub drafter: u32,
    pub cooldown_rounds: u32,
    pub steps: u32,
    pub max_step: u32,
    pub num_experts: u32,
    pub experts_per_tok: u32,
    pub shared_experts: u32,
    pub block: u32,
    pub prices: u32,
}

#[repr(C)]
#[derive(Clone, Copy, Debug, Default)]
pub struct Rates {
    pub peak: f64,
    pub bw: f64,
    pub kv_delta: f64,
}

#[repr(C)]
#[derive(Clone, Copy, Debug, Default)]
pub struct Ask {
    pub a: u64,
    pub b: u64,
    pub end: f64,
    pub rates: Rates,
    pub rows: usize,
    pub sequences: u32,
    pub source: u32,
    pub depth: u32,
    pub rounds: u32,
}

#[repr(C)]
#[derive(Clone, Copy, Debug, PartialEq, Eq)]
pub struct Planned {
    pub refusal: u64,
    pub used: usize,
    pub weighed: usize,
}

#[repr(C)]
#[derive(Clone, Copy, Debug, PartialEq, Eq)]
pub struct Count {
    pub refusal: u64,
    pub count: u64,
}

#[repr(C)]
#[derive(Clone, Copy, Debug)]
pub struct Figure {
    pub refusal: u64,
    pub value: f64,
}

#[repr(C)]
#[derive(Clone, Copy, Debug)]
pub struct Worker {
    pub refusal: u64,
    pub held: u64,
    pub width: u64,
    pub rounds: u64,
    pub stall: f64,
}

#[repr(C)]
#[derive(Clone, Copy, Debug, PartialEq, Eq)]
pub struct Read {
    pub refusal: u64,
    pub row: u64,
    pub rows: u32,
    pub depth: u32,
}

#[repr(C)]
#[derive(Clone, Copy, Debug, Default, PartialEq, Eq)]
pub struct Settling {
    pub refusal: u64,
    pub settles: u64,
    pub rounds: u64,
    pub walks: u64,
    pub width: u64,
}

extern "C" {
    pub fn latchmeander_version() -> u64;
    pub fn latchmeander_room() -> usize;
    pub fn latchmeander_fresh(storage: *mut u64, storage_len: usize) -> u64;
    pub fn latchmeander_collect(storage: *mut u64, storage_len: usize, a: u64, b: u64) -> Figure;
    pub fn latchmeander_withdraw(storage: *mut u64, storage_len: usize) -> u64;
    pub fn latchmeander_available(storage: *const u64, storage_len: usize) -> Count;
    pub fn latchmeander_seconds_held(storage: *const u64, storage_len: usize) -> Count;
    pub fn latchmeander_workers_held(storage: *const u64, storage_len: usize) -> Count;
    pub fn latchmeander_series(
        storage: *const u64,
        storage_len: usize,
        seconds: *mut u64,
        seconds_len: usize,
        mean_drafts: *mut f64,
        mean_drafts_len: usize,
        mean_batches: *mut f64,
        mean_batches_len: usize,
        mean_committed: *mut f64,
        mean_committed_len: usize,
    ) -> Count;
    pub fn latchmeander_day_figure(storage: *const u64, storage_len: usize) -> Figure;
    pub fn latchmeander_worker(storage: *const u64, storage_len: usize, a: u64, b: u64) -> Worker;
    pub fn latchmeander_plan(
        settings: Settings,
        ask: Ask,
        positions: *const f64,
        positions_len: usize,
        roofline: *const f64,
        roofline_len: usize,
        depths: *const u32,
        depths_len: usize,
        batches: *const u32,
        batches_len: usize,
        seconds: *const f64,
        seconds_len: usize,
        loaded: *const f64,
        loaded_len: usize,
        bank_commits: *const u32,
        bank_commits_len: usize,
        signals: *const f64,
        signals_len: usize,
        bank_curve: *const f64,
        bank_curve_len: usize,
        draws: *const f64,
        draws_len: usize,
        indices: *const u32,
        indices_len: usize,
        storage: *mut u64,
        storage_len: usize,
        drafts: *mut u32,
        drafts_len: usize,
        commits: *mut u32,
        commits_len: usize,
    ) -> Planned;
    pub fn latchmeander_settles(
        settings: Settings,
        ask: Ask,
        roofline: *const f64,
        roofline_len: usize,
        depths: *const u32,
        depths_len: usize,
        batches: *const u32,
        batches_len: usize,
        seconds: *const f64,
        seconds_len: usize,
        width: u32,
        target: u32,
        widths: *mut u32,
        widths_len: usize,
    ) -> Settling;
    pub fn latchmeander_drafter_seconds(
        settings: Settings,
        rates: Rates,
        verify_c: f64,
        widths: *const u32,
        widths_len: usize,
        loaded: *const f64,
        loaded_len: usize,
    ) -> Figure;
    pub fn latchmeander_accepted(draft: u32, planned: bool, commits: u32) -> u32;
    pub fn latchmeander_bank_read(
        text: *const u8,
        text_len: usize,
        commits: *mut u32,
        commits_len: usize,
        signals: *mut f64,
        signals_len: usize,
        curve: *mut f64,
        curve_len: usize,
    ) -> Read;
    pub fn latchmeander_table_read(
        text: *const u8,
        text_len: usize,
        depths: *mut u32,
        depths_len: usize,
        batches: *mut u32,
        batches_len: usize,
        seconds: *mut f64,
        seconds_len: usize,
    ) -> Read;
}
