//! Writes files of cases of survival chains, expected acceptance and goodput, answered by the
//! rules and by the unchanged Rust.
mod random;
mod sample;

use numbers::commands::{run, Writer};
use numbers::word_case::WordCase;
use std::process::ExitCode;

fn main() -> ExitCode {
    run(&Writer {
        name: "goodput",
        recorded: || (sample::space(), sample::recorded()),
        random: |seed| (random::space(seed), random::cases(seed)),
        spoiled: WordCase::spoiled,
        spoiling: "each spoiled in one word",
        with_calls: None,
    })
}
