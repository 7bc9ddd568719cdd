//! Reaches the private items of `config/speculative.rs`, as its child module.
#![warn(clippy::all)]
use super::*;

/// The drafter cost in force: Fraction 0 where none is set.
pub fn resolved(cfg: &SpeculativeConfig) -> DrafterCost {
    cfg.resolved_drafter()
}
