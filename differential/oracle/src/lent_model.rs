//! `config::model`, of which the Rust uses one function whose body was not given: it is read from
//! a lent list indexed by batch, as the rules have it.
use std::cell::RefCell;

#[derive(Default)]
struct Loaded {
    experts_per_tok: f64,
    by_batch: Vec<f64>,
    reads: usize,
    outside: usize,
}

std::thread_local! {
    static LOADED: RefCell<Loaded> = RefCell::new(Loaded::default());
}

/// Lends the list for configurations with this `experts_per_tok`. Where that is 0 the Rust's
/// argument is 0.0 at every batch and no body could tell batches apart: the list must be constant.
pub fn lend_loaded(experts_per_tok: u32, by_batch: &[f64]) {
    let constant = by_batch
        .windows(2)
        .all(|w| w[0].to_bits() == w[1].to_bits());
    assert!(
        experts_per_tok > 0 || constant,
        "experts_per_tok 0 needs a constant list"
    );
    let lent = Loaded {
        experts_per_tok: f64::from(experts_per_tok),
        by_batch: by_batch.to_vec(),
        reads: 0,
        outside: 0,
    };
    LOADED.with_borrow_mut(|loaded| *loaded = lent)
}

/// How often the list was read since it was lent, and how often past its end.
pub fn loaded_reads() -> (usize, usize) {
    LOADED.with_borrow(|loaded| (loaded.reads, loaded.outside))
}

/// What the Rust calls. Inside the domain `draws` is batch * experts_per_tok below 2^53, so exact,
/// and the quotient is the batch exactly.
pub fn expected_distinct_experts(_num_experts: u32, draws: f64) -> f64 {
    LOADED.with_borrow_mut(|loaded| {
        loaded.reads += 1;
        let k = loaded.experts_per_tok;
        let batch = if k == 0.0 { 0.0 } else { draws / k };
        assert!(
            batch * k == draws && batch.fract() == 0.0,
            "draws {draws} is no multiple of {k}"
        );
        match loaded.by_batch.get(batch as usize) {
            Some(&experts) => experts,
            None => {
                loaded.outside += 1;
                0.0
            }
        }
    })
}
