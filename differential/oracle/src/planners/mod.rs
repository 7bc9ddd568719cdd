//! Whole plans: what they are asked with and lent, whole and damaged, the first refusal of one, and the
//! unchanged Rust's planner asked with it; and how long a worker's width takes to settle.
pub mod arriving;
pub mod bridged;
pub mod damages;
pub mod judge;
pub mod plan;
pub mod questions;
pub mod settling;
pub mod unchanged;
pub mod world;
pub mod worlds;
