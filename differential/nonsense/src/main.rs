//! Calls every entry point over random lent bytes, and compares each answer and all that is left in the
//! buffers with the definitions, read here once more.
//!
//! nonsense SEED CALLS [FUNCTION PLACE]
mod dealing;
mod drawn;
mod ending;
mod exported;
mod function;
mod host;
mod ledger;
mod lent;
mod pages;
mod readings;
mod registered;
mod tally;
mod turn;

use dealing::{Dealt, Differing};
use std::process::ExitCode;

fn main() -> ExitCode {
    let words: Vec<String> = std::env::args().skip(1).collect();
    let number = |at: usize| words.get(at).and_then(|word| word.parse::<u64>().ok());
    let (Some(seed), Some(calls)) = (number(0), number(1)) else {
        eprintln!("usage: nonsense SEED CALLS [FUNCTION PLACE]");
        return ExitCode::from(2);
    };
    ending::install();
    let functions = registered::all().into_iter();
    let mut dealt: Vec<Dealt> = functions.map(|f| Dealt::new(f, seed, calls)).collect();
    match (words.get(2), number(3)) {
        (None, _) => run(&mut dealt, calls),
        (Some(name), Some(place)) => repeat(&mut dealt, name, place),
        (Some(name), None) => {
            dealt.retain(|one| one.function.name() == name);
            run(&mut dealt, calls)
        }
    }
}

/// So many calls in all, a block of each function in turn.
fn run(dealt: &mut [Dealt], calls: u64) -> ExitCode {
    if dealt.is_empty() {
        eprintln!("nonsense: no such function");
        return ExitCode::from(2);
    }
    let (mut left, mut found) = (calls, None);
    let mut next = 0;
    while left > 0 && found.is_none() {
        let most = left.min(dealing::BLOCK);
        let at = next % dealt.len();
        found = dealt[at].block(most).err();
        left -= most;
        next += 1;
    }
    for one in dealt.iter() {
        println!("{}", one.tally.line(one.function.name()));
    }
    let mut is_right = found.is_none();
    if let Some(found) = &found {
        print_account(found);
    }
    for one in dealt.iter() {
        if let Some(missing) = one.tally.missing(&*one.function) {
            println!("{} {missing}", one.function.name());
            is_right = false;
        }
    }
    let made: u64 = dealt.iter().map(|one| one.tally.calls).sum();
    let outside = found.as_ref().map_or(0, |found| found.turn.outside);
    println!(
        "{made} calls of {} functions, {} differing, {outside} bytes written outside",
        dealt.len(),
        u64::from(found.is_some())
    );
    status(is_right)
}

/// One call again, with an account of it.
fn repeat(dealt: &mut [Dealt], name: &str, place: u64) -> ExitCode {
    let Some(one) = dealt.iter_mut().find(|one| one.function.name() == name) else {
        eprintln!("nonsense: no such function");
        return ExitCode::from(2);
    };
    let found = one.again(place);
    print_account(&found);
    status(found.turn.differences.is_empty())
}

fn print_account(found: &Differing) {
    println!("{}: inputs {:?}", found.repeat, found.turn.mixture);
    for line in found.turn.account.iter().flatten() {
        println!("  {line}");
    }
    match found.turn.refusal {
        0 => println!("  answered"),
        number => println!("  refused {number}"),
    }
    for difference in &found.turn.differences {
        println!("  differing: {difference}");
    }
}

fn status(is_right: bool) -> ExitCode {
    if is_right {
        ExitCode::SUCCESS
    } else {
        ExitCode::FAILURE
    }
}
