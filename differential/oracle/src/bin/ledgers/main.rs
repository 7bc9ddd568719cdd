//! Writes files of cases of the ledger: sequences of calls on one storage, with what each call
//! answers and what can be read after it.
mod afresh;
mod call;
mod digest;
mod drawing;
mod ledger;
mod random;
mod sample;
mod sequence;
mod sequence_case;
mod worker;

use numbers::commands::{run, Writer};
use std::process::ExitCode;

fn main() -> ExitCode {
    run(&Writer {
        name: "ledgers",
        recorded: || (sample::space(), sample::recorded()),
        random: |seed| (random::space(seed), random::cases(seed)),
        spoiled: sequence_case::spoiled,
        spoiling: "each spoiled in one word",
        with_calls: Some(random::with_calls),
    })
}
