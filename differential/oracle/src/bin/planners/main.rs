//! Writes files of cases of whole planners: their calls, answered by the unchanged Rust's planner,
//! damaged plans, refused by the rules' plan order, and widths that settle.
mod asked;
#[cfg(test)]
mod examples;
mod full;
mod held;
mod met;
mod planner_case;
mod random;
mod sample;
mod scene;
mod script;
mod settled;
mod sharp;

use numbers::commands::{run, Writer};
use std::process::ExitCode;

fn main() -> ExitCode {
    run(&Writer {
        name: "planners",
        recorded: || (sample::space(), sample::recorded()),
        random: |seed| (random::space(seed), random::cases(seed)),
        spoiled: planner_case::spoiled,
        spoiling: "each spoiled in one word",
        with_calls: Some(random::with_calls),
    })
}
