//! Writes files of cases of cost tables, of drafter costs and of switching, answered by the rules and
//! by the unchanged Rust.
mod decisions;
mod drafters;
mod lookups;
mod random;
mod sample;
mod tables;
mod unchanged;

use numbers::commands::{run, Writer};
use numbers::word_case::WordCase;
use std::process::ExitCode;

fn main() -> ExitCode {
    run(&Writer {
        name: "costs",
        recorded: || (sample::space(), sample::recorded()),
        random: |seed| (random::space(seed), random::cases(seed)),
        spoiled: WordCase::spoiled,
        spoiling: "each spoiled in one word",
        with_calls: None,
    })
}
