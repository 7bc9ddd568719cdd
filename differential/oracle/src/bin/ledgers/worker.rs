//! A worker: the two numbers that name it, and what its decisions are lent.
use oracle::config::SwitchConstraints;
use oracle::simulation::spec::probe::{choose, Record};
use oracle::simulation::spec::WorkerKey;

#[derive(Clone, Debug)]
pub struct Worker {
    pub first: u64,
    pub second: u64,
    /// The prices whose finite depths are the candidates.
    pub curve: Vec<f64>,
    /// A constrained setting: the Rust keeps no record under another.
    pub switch: SwitchConstraints,
}

impl Worker {
    pub fn key(&self) -> WorkerKey {
        (self.first as usize, self.second as usize)
    }

    /// The record behind one decision more.
    pub fn decided(&self, before: Option<Record>, target: u32) -> Record {
        choose(before, target, &self.curve, &self.switch).1
    }
}
