//! Writes files of cases of trace banks, of acceptance models and of their positions' values, answered
//! by the rules and by the unchanged Rust.
mod case;
mod case_line;
mod figures;
mod models;
mod random;
mod sample;
mod spoil;
mod unchanged;
mod values;

use numbers::commands::{run, Writer};
use std::process::ExitCode;

fn main() -> ExitCode {
    run(&Writer {
        name: "banks",
        recorded: || (sample::space(), sample::recorded()),
        random: |seed| (random::space(seed), random::cases(seed)),
        spoiled: spoil::spoiled,
        spoiling: "each spoiled in one digit",
        with_calls: None,
    })
}
