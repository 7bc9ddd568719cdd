//! The proved library, across its C boundary. A slice crosses as its address and its length, and is used only during the call.

extern "C" {
    fn bench_decimal(text: *const u8, length: usize) -> f64;

    #[cfg(feature = "rust")]
    fn bench_bank(
        text: *const u8,
        length: usize,
        commits: *mut u32,
        commits_room: usize,
        signals: *mut f64,
        signals_room: usize,
        curve: *mut f64,
        curve_room: usize,
    ) -> u64;

    #[cfg(feature = "rust")]
    fn bench_table(
        text: *const u8,
        length: usize,
        depths: *mut u32,
        depths_room: usize,
        batches: *mut u32,
        batches_room: usize,
        seconds: *mut f64,
        seconds_room: usize,
    ) -> u64;

    #[cfg(feature = "rust")]
    fn bench_price(
        depths: *const u32,
        depths_length: usize,
        batches: *const u32,
        batches_length: usize,
        seconds: *const f64,
        seconds_length: usize,
        rows: usize,
        batch: u32,
        kv_delta: f64,
        depth: usize,
    ) -> f64;
}

/// The value; 0.0 where it is refused.
pub fn decimal(text: &[u8]) -> f64 {
    unsafe { bench_decimal(text.as_ptr(), text.len()) }
}

/// The buffers that a bank is read into.
#[cfg(feature = "rust")]
pub struct Bank {
    pub commits: Vec<u32>,
    pub signals: Vec<f64>,
    pub curve: Vec<f64>,
}

#[cfg(feature = "rust")]
impl Bank {
    pub fn with_room(rounds: usize, depth: usize) -> Bank {
        Bank {
            commits: vec![0; rounds],
            signals: vec![0.0; rounds * depth],
            curve: vec![0.0; depth + 1],
        }
    }

    /// How many rounds were read; 0 where the text is refused.
    pub fn read(&mut self, text: &str) -> u64 {
        let Bank {
            commits,
            signals,
            curve,
        } = self;
        unsafe {
            bench_bank(
                text.as_ptr(),
                text.len(),
                commits.as_mut_ptr(),
                commits.len(),
                signals.as_mut_ptr(),
                signals.len(),
                curve.as_mut_ptr(),
                curve.len(),
            )
        }
    }
}

/// The columns that a cost table is read into, and how many rows they hold.
#[cfg(feature = "rust")]
pub struct Table {
    pub depths: Vec<u32>,
    pub batches: Vec<u32>,
    pub seconds: Vec<f64>,
    pub rows: usize,
}

#[cfg(feature = "rust")]
impl Table {
    pub fn with_room(rows: usize) -> Table {
        Table {
            depths: vec![0; rows],
            batches: vec![0; rows],
            seconds: vec![0.0; rows],
            rows: 0,
        }
    }

    /// How many rows were kept; 0 where the text is refused.
    pub fn read(&mut self, text: &str) -> u64 {
        let Table {
            depths,
            batches,
            seconds,
            rows,
        } = self;
        let kept = unsafe {
            bench_table(
                text.as_ptr(),
                text.len(),
                depths.as_mut_ptr(),
                depths.len(),
                batches.as_mut_ptr(),
                batches.len(),
                seconds.as_mut_ptr(),
                seconds.len(),
            )
        };
        *rows = kept as usize;
        kept
    }

    /// The price of a depth, on the whole curve of a batch.
    pub fn price(&self, batch: u32, kv_delta: f64, depth: usize) -> f64 {
        unsafe {
            bench_price(
                self.depths.as_ptr(),
                self.depths.len(),
                self.batches.as_ptr(),
                self.batches.len(),
                self.seconds.as_ptr(),
                self.seconds.len(),
                self.rows,
                batch,
                kv_delta,
                depth,
            )
        }
    }
}
