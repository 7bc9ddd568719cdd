//! The planner's storage over any words, as docs/LEDGER.md and the definitions of the ledger's crates
//! have it, written once more.
pub mod calls;
pub mod changes;
pub mod layout;
pub mod seconds;
pub mod series;
pub mod workers;
