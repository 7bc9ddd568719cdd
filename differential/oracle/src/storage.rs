//! The planner's storage as our side has it; the Rust has none.

/// The words that a planner takes.
pub const ROOM: usize = 22_468;
