//! What calls are lent, drawn by the mixture of the turn.
pub mod batches;
pub mod day_lines;
pub mod drafters;
pub mod floats;
pub mod models;
pub mod tables;
pub mod texts;
