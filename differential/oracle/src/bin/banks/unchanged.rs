//! What the unchanged Rust answers.
use oracle::banks::bank::Bank;
use oracle::config::TraceBank;
use oracle::model::{Model, Sample};
use oracle::unchanged::{acceptance, floats};
use rand::rngs::StdRng;
use rand::SeedableRng;

const NAME: &str = "lent:bank";

/// The bank that the Rust reads, or its error.
pub fn bank(text: &[u8]) -> Result<Bank, String> {
    let text = std::str::from_utf8(text).map_err(|fault| fault.to_string())?;
    std_lent::fs::lend_text(NAME, text);
    TraceBank::load(NAME).map(|bank| by_bits(&bank))
}

fn by_bits(bank: &TraceBank) -> Bank {
    let signals = bank.rounds.iter().flat_map(|round| &round.a_hat);
    Bank {
        depth: bank.max_depth,
        commits: bank.rounds.iter().map(|round| round.commits).collect(),
        signals: signals.map(|value| value.to_bits()).collect(),
        curve: bank.e_curve.iter().map(|value| value.to_bits()).collect(),
    }
}

/// The bits of the expected number of accepted drafts.
pub fn expected(model: &Model) -> u64 {
    acceptance(model).expected_accepted(model.gamma).to_bits()
}

/// What the Rust accepts of the model's draws; every draw that it asks for has to be there.
pub fn sample(model: &Model) -> Sample {
    rand::lend(&floats(&model.draws), &[]);
    let mut draws = StdRng::seed_from_u64(0);
    let commits = acceptance(model).sample_accepted(model.gamma, &mut draws);
    let used = rand::used();
    assert_eq!(used.absent, 0, "{model:x?}");
    Sample {
        commits,
        used: used.floats,
    }
}

/// The bits of the value of a position.
pub fn value(model: &Model, position: usize) -> u64 {
    acceptance(model).a_d(position).to_bits()
}
