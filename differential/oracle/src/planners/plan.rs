//! A plan as it is asked for, and what becomes of it.
use crate::planners::world::World;
use std::rc::Rc;

pub use crate::storage::ROOM;

/// The words that the replaying program has.
pub const WHOLE: usize = ROOM + 8;

/// The most slots that a case may lend for drafts or commits.
pub const MOST_SLOTS: usize = 1088;

#[derive(Clone, Debug)]
pub struct Plan {
    pub world: Rc<World>,
    pub draws: Vec<u64>,
    pub indices: Vec<u64>,
    /// The two numbers of the worker.
    pub a: u64,
    pub b: u64,
    pub sequences: u32,
    /// The bits of the end time.
    pub end: u64,
    /// The words of the storage and the slots that are lent.
    pub storage: usize,
    pub drafts: usize,
    pub commits: usize,
}

#[derive(Clone, Debug, PartialEq, Eq)]
pub enum Planned {
    Plan {
        used: u64,
        weighed: u64,
        drafts: Vec<u32>,
        commits: Vec<u32>,
    },
    Empty,
    Refused(u64),
}
