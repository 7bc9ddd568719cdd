//! The planner's storage, across its C boundary.

extern "C" {
    fn bench_fresh(storage: *mut u64, room: usize) -> u64;

    fn bench_record(
        storage: *mut u64,
        room: usize,
        second: u64,
        drafts: u64,
        sequences: u64,
        committed: u64,
    ) -> u64;

    fn bench_series(
        storage: *const u64,
        length: usize,
        seconds: *mut u64,
        seconds_room: usize,
        drafts: *mut f64,
        drafts_room: usize,
        batches: *mut f64,
        batches_room: usize,
        committed: *mut f64,
        committed_room: usize,
    ) -> u64;
}

/// The words of a planner's storage.
const ROOM: usize = 22_468;

/// The most seconds that are held.
pub const SECONDS: usize = 4_096;

/// A planner's storage.
pub struct Storage(Vec<u64>);

impl Storage {
    pub fn fresh() -> Storage {
        let mut words = vec![0; ROOM];
        let refusal = unsafe { bench_fresh(words.as_mut_ptr(), words.len()) };
        assert_eq!(refusal, 0, "{ROOM} words are too few for a planner");
        Storage(words)
    }

    pub fn words(&mut self) -> &mut [u64] {
        &mut self.0
    }

    /// Counts a plan of no worker, all of whose drafts are committed; answers the number of the refusal, 0 for none.
    pub fn record(&mut self, second: u64, drafts: u64, sequences: u64) -> u64 {
        let Storage(words) = self;
        let room = words.len();
        unsafe { bench_record(words.as_mut_ptr(), room, second, drafts, sequences, drafts) }
    }
}

/// The buffers that a series is written to.
pub struct Series {
    pub seconds: Vec<u64>,
    pub drafts: Vec<f64>,
    pub batches: Vec<f64>,
    pub committed: Vec<f64>,
}

impl Series {
    pub fn with_room(seconds: usize) -> Series {
        Series {
            seconds: vec![0; seconds],
            drafts: vec![0.0; seconds],
            batches: vec![0.0; seconds],
            committed: vec![0.0; seconds],
        }
    }

    /// How many seconds the storage holds; 2^64 - 1 where the buffers are too short.
    pub fn read(&mut self, storage: &Storage) -> u64 {
        let Storage(words) = storage;
        unsafe {
            bench_series(
                words.as_ptr(),
                words.len(),
                self.seconds.as_mut_ptr(),
                self.seconds.len(),
                self.drafts.as_mut_ptr(),
                self.drafts.len(),
                self.batches.as_mut_ptr(),
                self.batches.len(),
                self.committed.as_mut_ptr(),
                self.committed.len(),
            )
        }
    }
}
