//! What the entry points answer, read from docs/RULES.md and from the definitions in `specs/`, where
//! the crates `numbers` and `oracle` do not have it.
pub mod clock;
pub mod day_lines;
pub mod floats;
pub mod settling;
pub mod shapes;
pub mod texts;
pub mod walks;
