//! The Rust's readers on small texts, and the refusal that the rules give the same fault.
use oracle::compute::measured::probe::parse;
use oracle::config::TraceBank;
use oracle::refusals::of_text;

type Refusal = (u32, u32);

fn bank(text: &str) -> Result<(), Refusal> {
    std_lent::fs::lend_text("lent:bank", text);
    TraceBank::load("lent:bank")
        .map(|_| ())
        .map_err(|error| of_text(&error))
}

fn table(text: &str) -> Result<(), Refusal> {
    parse(text).map(|_| ()).map_err(|error| of_text(&error))
}

fn rows(rows: &str) -> Result<(), Refusal> {
    table(&format!("batch_size,num_draft_tokens,step_seconds\n{rows}"))
}

#[test]
fn bank_refusals() {
    assert_eq!(bank(""), Err((2, 0)));
    assert_eq!(bank("commits,b\n1,2\n"), Err((3, 1)));
    assert_eq!(bank("commits,a\n"), Err((10, 0)));
    assert_eq!(bank("commits,a\n\n"), Err((4, 2))); // a blank line has one field
    assert_eq!(bank("commits,a\n1,1\n1,2,3\n"), Err((4, 3)));
    assert_eq!(bank("commits,a\n4294967296,1\n"), Err((5, 2)));
    assert_eq!(bank("commits,a\n+,1\n"), Err((5, 2)));
    assert_eq!(bank("commits,a\n1,\n"), Err((6, 2)));
    assert_eq!(bank("commits,a\n1,.\n"), Err((6, 2)));
    assert_eq!(bank("commits,a\n1, 1\n"), Err((6, 2)));
    assert_eq!(bank("commits,a\n1,1\r"), Err((6, 2))); // a CR at the very end stays
    assert_eq!(bank("commits,a\r\n+1,+1.\r\n"), Ok(()));
    assert_eq!(bank("commits,a\n1,-.5"), Ok(()));
}

#[test]
fn table_refusals() {
    assert_eq!(table(""), Err((2, 0)));
    assert_eq!(table("x\n"), Err((3, 1)));
    assert_eq!(rows(""), Err((10, 0)));
    assert_eq!(rows(" \t\n1,1,0\n"), Err((8, 3))); // skipped, but numbered
    assert_eq!(rows("1,0,0\n"), Err((8, 2))); // 8 before 9
    assert_eq!(rows("1,0,1\n"), Err((9, 2)));
    assert_eq!(rows("1,1\n"), Err((4, 2)));
    assert_eq!(rows("1,-1,1\n"), Err((5, 2)));
    assert_eq!(rows("1,1,x\n"), Err((6, 2)));
    assert_eq!(rows(" 1 ,\t2\x0b, +1.5 \n"), Ok(()));
}

/// An empty sum is minus zero in this Rust; nothing in the rules sums an empty list where that
/// shows.
#[test]
fn an_empty_sum_is_minus_zero() {
    let none: [f64; 0] = [];
    assert_eq!(none.iter().sum::<f64>().to_bits(), (-0.0f64).to_bits());
}
