//! What plans are made of, as docs/RULES.md has it, with the cases of it: survival chains, price curves,
//! expected acceptance, goodput and the two gates.
pub mod batch;
pub mod batches;
pub mod chains;
pub mod edges;
pub mod expectation;
pub mod gate;
pub mod goodput;
pub mod hole_patterns;
pub mod made;
pub mod priced;
pub mod prices;
pub mod signal;
pub mod unchanged;
pub mod verify_price;
