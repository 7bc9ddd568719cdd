//! The recorded sample's numbers through the Rust's own trace bank reader: what it answers is what
//! the sample's column of Rust says.
use numbers::case::{Case, Kind};
use numbers::sample;
use oracle::config::{TraceBank, TraceRound};

/// What the Rust reads in a row of one text and one other number; nothing where it refuses the row.
fn read(row: String) -> Option<TraceRound> {
    std_lent::fs::lend_text("lent:bank", &format!("commits,a0\n{row}"));
    let bank = TraceBank::load("lent:bank").ok()?;
    bank.rounds.into_iter().next()
}

/// The Rust's answer as the sample writes it.
fn answer(kind: Kind, text: &str) -> Option<u64> {
    match kind {
        Kind::Decimal => {
            let value = read(format!("1,{text}"))?.a_hat[0];
            let bits = if value.is_nan() { f64::NAN } else { value };
            Some(bits.to_bits())
        }
        _ => Some(u64::from(read(format!("{text},1"))?.commits)),
    }
}

/// The text where it can stand in a row: a comma or an LF would end the field.
fn field(case: &Case) -> Option<&str> {
    let text = std::str::from_utf8(&case.text).ok()?;
    let is_field = case.kind != Kind::Second && !text.contains([',', '\n']);
    is_field.then_some(text)
}

#[test]
fn the_rust_reads_the_recorded_numbers_as_recorded() {
    let mut fields = 0;
    for case in sample::recorded() {
        let Some(text) = field(&case) else { continue };
        let wanted = answer(case.kind, text).map_or(numbers::case::NO_ANSWER, numbers::case::hex);
        assert_eq!(case.rust, wanted, "{text:?}");
        fields += 1;
    }
    assert!(fields > 2000, "only {fields} numbers can stand in a field");
}
