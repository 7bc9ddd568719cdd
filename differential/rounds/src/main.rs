//! All comparisons with the Rust in turn, until the time is up: how often each function was run, on
//! what, and whether a case differed. A case that differs is made as small as it will go.
mod found;
mod kinds;
mod runner;
mod smaller;
mod tally;

use found::Found;
use kinds::{Kind, KINDS};
use runner::Runner;
use std::process::ExitCode;
use std::time::{Duration, Instant};
use tally::Tally;

/// What was run of a kind so far.
#[derive(Default)]
struct Runs {
    turns: u64,
    cases: u64,
    space: String,
    /// What the programs counted, and what the writers did.
    answered: Tally,
    written: Tally,
}

fn main() -> ExitCode {
    let words: Vec<String> = std::env::args().skip(1).collect();
    match run(&words) {
        Ok(true) => ExitCode::SUCCESS,
        Ok(false) => ExitCode::FAILURE,
        Err(fault) => {
            eprintln!("rounds: {fault}");
            ExitCode::FAILURE
        }
    }
}

/// Whether no case differed.
fn run(words: &[String]) -> Result<bool, String> {
    let [seed, minutes, writers, programs, folder, words @ ..] = words else {
        return Err("usage: rounds SEED MINUTES WRITERS PROGRAMS FOLDER [WORD..]".to_string());
    };
    let number = |word: &String| {
        word.parse::<u64>()
            .map_err(|_| format!("no number: {word}"))
    };
    let [seed, minutes] = [number(seed)?, number(minutes)?];
    let runner = Runner {
        writers: writers.into(),
        programs: programs.into(),
        words: words.to_vec(),
        folder: folder.into(),
    };
    let end = Instant::now() + Duration::from_secs(60 * minutes);
    let mut runs: [Runs; 7] = Default::default();
    let mut turn = 0;
    while turn < KINDS.len() as u64 || Instant::now() < end {
        let place = turn as usize % KINDS.len();
        let found = take_turn(
            &runner,
            &KINDS[place],
            seed_of(seed, turn),
            &mut runs[place],
        )?;
        if let Some(found) = found {
            print(&runs, 1);
            print!("{found}");
            return Ok(false);
        }
        turn += 1;
    }
    print(&runs, 0);
    Ok(true)
}

/// Each turn has a seed of its own, and so has each seed.
fn seed_of(seed: u64, turn: u64) -> u64 {
    seed.wrapping_mul(1_000_000).wrapping_add(turn)
}

/// One kind's next cases; what was found where one differs.
fn take_turn(
    runner: &Runner,
    kind: &Kind,
    seed: u64,
    runs: &mut Runs,
) -> Result<Option<Found>, String> {
    let cases = runner.file("turn.cases");
    let path = cases.to_str().ok_or("a folder's name is no text")?;
    let [at, count] = [seed, kind.cases].map(|n| n.to_string());
    let written = runner.write(kind, &["random", &at, &count, path])?;
    let answered = runner.replay(kind, &cases)?;
    written.lines().for_each(|line| runs.written.add(line));
    for line in answered.lines().skip(2) {
        runs.answered.add(line);
    }
    let space = answered.lines().nth(1).unwrap_or("");
    let space = space
        .rsplit_once("; seed")
        .map_or(space, |(space, _)| space);
    runs.space = space.trim_start_matches("# ").to_string();
    runs.turns += 1;
    runs.cases += kind.cases;
    if answered.lines().any(|line| line == "differing 0") {
        return Ok(None);
    }
    found::smallest(runner, kind, seed, &cases).map(Some)
}

fn print(runs: &[Runs], differing: u64) {
    let mut all = 0;
    for (kind, runs) in KINDS.iter().zip(runs) {
        println!("{}: turns {}, cases {}", kind.name, runs.turns, runs.cases);
        println!("  {}", runs.space);
        println!("  answered by {}:", kind.program);
        print!("{}", indented(&runs.answered));
        println!("  written, by what the rules answer:");
        print!("{}", indented(&runs.written.clone().named(kind.functions)));
        if runs.written.shapes() > 0 {
            println!("  distinct shapes met: {}", runs.written.shapes());
        }
        all += runs.cases;
    }
    println!("{all} runs, {differing} differing");
}

fn indented(tally: &Tally) -> String {
    let lines = tally.to_string();
    lines.lines().map(|line| format!("  {line}\n")).collect()
}
