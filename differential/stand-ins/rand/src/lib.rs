//! Stand-in for rand 0.10: `StdRng` replays the draws that the test lends, and counts those used.
use std::cell::RefCell;
use std::ops::Range;

/// What is lent to every `StdRng` of this thread, and what became of it.
#[derive(Default)]
struct Lent {
    floats: Vec<f64>,
    indices: Vec<usize>,
    used: Used,
}

/// What became of the lent draws since they were lent.
#[derive(Clone, Copy, Debug, Default, PartialEq, Eq)]
pub struct Used {
    pub floats: usize,
    pub indices: usize,
    /// Draws asked for past the end of the list: the rules' refusal 13.
    pub absent: usize,
    /// Indices that were not below the range's end: the rules' refusal 14.
    pub out_of_range: usize,
}

thread_local! {
    static LENT: RefCell<Lent> = RefCell::new(Lent::default());
}

/// Lends draws to this thread; the counts start from zero.
pub fn lend(floats: &[f64], indices: &[usize]) {
    let lent = Lent {
        floats: floats.to_vec(),
        indices: indices.to_vec(),
        used: Used::default(),
    };
    LENT.with_borrow_mut(|held| *held = lent)
}

/// What became of the draws since they were lent.
pub fn used() -> Used {
    LENT.with_borrow(|lent| lent.used)
}

/// A source of draws. In rand 0.10 `Rng` is the core trait and `RngExt` is what users call.
pub trait Rng {
    fn lent_f64(&mut self) -> f64;
    fn lent_index(&mut self, end: usize) -> usize;
}

pub trait SeedableRng: Sized {
    fn seed_from_u64(seed: u64) -> Self;
}

/// A type that `random::<T>()` gives: the Rust asks for f64 only.
pub trait Drawn {
    fn draw<R: Rng + ?Sized>(rng: &mut R) -> Self;
}

impl Drawn for f64 {
    fn draw<R: Rng + ?Sized>(rng: &mut R) -> f64 {
        rng.lent_f64()
    }
}

pub trait RngExt: Rng {
    fn random<T: Drawn>(&mut self) -> T {
        T::draw(self)
    }

    fn random_range(&mut self, range: Range<usize>) -> usize {
        assert_eq!(range.start, 0, "the Rust only asks for 0..n");
        self.lent_index(range.end)
    }
}

impl<R: Rng + ?Sized> RngExt for R {}

pub mod rngs {
    use super::{Rng, SeedableRng, LENT};

    /// Replays the thread's lent draws; the seed is ignored.
    pub struct StdRng;

    impl SeedableRng for StdRng {
        fn seed_from_u64(_seed: u64) -> Self {
            StdRng
        }
    }

    impl Rng for StdRng {
        /// An absent draw is answered 1.0: not below any position's value, it ends the sequence.
        fn lent_f64(&mut self) -> f64 {
            LENT.with_borrow_mut(|lent| match lent.floats.get(lent.used.floats) {
                Some(&draw) => {
                    lent.used.floats += 1;
                    draw
                }
                None => {
                    lent.used.absent += 1;
                    1.0
                }
            })
        }

        /// An index that is absent or out of range is answered 0.
        fn lent_index(&mut self, end: usize) -> usize {
            LENT.with_borrow_mut(|lent| {
                let Some(&index) = lent.indices.get(lent.used.indices) else {
                    lent.used.absent += 1;
                    return 0;
                };
                lent.used.indices += 1;
                if index < end {
                    return index;
                }
                lent.used.out_of_range += 1;
                0
            })
        }
    }
}
