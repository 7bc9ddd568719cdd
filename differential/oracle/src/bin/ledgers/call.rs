//! The calls of a sequence. A worker is named by its place among the sequence's workers.

/// What a plan adds at the second of its end. An end time is its bits.
#[derive(Clone, Copy, Debug)]
pub struct Step {
    pub end: u64,
    pub drafts: u64,
    pub sequences: u64,
    pub committed: u64,
}

impl Step {
    /// All sequences draft the same width, and so many in a hundred of all drafts are committed.
    pub fn of_width(width: u32, end: u64, sequences: u64, share: u64) -> Step {
        let drafts = u64::from(width) * sequences;
        Step {
            end,
            drafts,
            sequences,
            committed: drafts * share / 100,
        }
    }
}

/// The calls that a sequence makes.
#[derive(Clone, Debug)]
pub enum Call {
    Fresh,
    /// A plan of no worker.
    Plan(Step),
    /// A plan that decides its worker's width.
    Decide {
        end: u64,
        sequences: u64,
        /// How many in a hundred of its drafts are committed.
        share: u64,
        worker: usize,
        target: u32,
    },
    Collect {
        worker: usize,
    },
    Withdraw,
    JudgeStep {
        end: u64,
    },
    JudgeWorker {
        worker: usize,
    },
    /// Plans of no worker, so many, that add the same from the first one's second on, `apart` seconds
    /// from each other.
    ManyPlans {
        count: u64,
        apart: u64,
        first: Step,
    },
    /// First decisions of so many workers, from a place on, that have no record.
    ManyWorkers {
        count: usize,
        from: usize,
        end: u64,
        sequences: u64,
        share: u64,
        target: u32,
    },
    ManyWithdrawals {
        count: u64,
    },
}

/// What a call answers: the refusal's number or 0, and the value, 0 where there is none. Of many
/// calls in one, the newest refusal and how many were accepted.
#[derive(Clone, Copy, Debug, Default, PartialEq, Eq)]
pub struct Outcome {
    pub refusal: u64,
    pub value: u64,
}

impl Outcome {
    pub fn done() -> Outcome {
        Outcome::default()
    }

    pub fn of_value(value: u64) -> Outcome {
        Outcome { refusal: 0, value }
    }

    pub fn refused(refusal: u64) -> Outcome {
        Outcome { refusal, value: 0 }
    }

    /// With one call more of many.
    pub fn and(self, refusal: u64) -> Outcome {
        match refusal {
            0 => Outcome {
                value: self.value + 1,
                ..self
            },
            _ => Outcome { refusal, ..self },
        }
    }
}
