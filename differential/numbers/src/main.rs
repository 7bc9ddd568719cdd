//! Writes files of number cases.
use numbers::commands::{run, Writer};
use numbers::{random, sample, spoil};
use std::process::ExitCode;

fn main() -> ExitCode {
    run(&Writer {
        name: "numbers",
        recorded: || (sample::space(), sample::recorded()),
        random: |seed| (random::space(seed), random::cases(seed)),
        spoiled: |_, case| spoil::spoiled(case),
        spoiling: "each answer spoiled in one digit",
        with_calls: None,
    })
}
