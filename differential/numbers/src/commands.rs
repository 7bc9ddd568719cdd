//! The command line of a program that writes files of cases.
use crate::case_file::{self, FileCase};
use crate::kept::Kept;
use std::process::ExitCode;

/// What a program writes.
pub struct Writer<Case, Random> {
    /// The program's name.
    pub name: &'static str,
    /// The sample's space, in a sentence, and its cases.
    pub recorded: fn() -> (String, Vec<Case>),
    /// The space of a seed's cases, in a sentence, and the cases, without an end.
    pub random: fn(u64) -> (String, Random),
    /// The case made wrong. The number is its place in the file, from 0.
    pub spoiled: fn(usize, Case) -> Case,
    /// What the space of a spoiled file says of its cases.
    pub spoiling: &'static str,
    /// The case of a seed at a place, from 0, with some of its calls, and how many calls it has with
    /// all; none where a case is one call.
    pub with_calls: Option<fn(u64, usize, &Kept) -> (Case, usize)>,
}

/// Does what the program's arguments ask for.
pub fn run<Case: FileCase, Random: Iterator<Item = Case>>(
    writer: &Writer<Case, Random>,
) -> ExitCode {
    let arguments: Vec<String> = std::env::args().skip(1).collect();
    let words: Vec<&str> = arguments.iter().map(String::as_str).collect();
    match writer.obey(&words) {
        Ok(()) => ExitCode::SUCCESS,
        Err(fault) => {
            eprintln!("{}: {fault}", writer.name);
            ExitCode::FAILURE
        }
    }
}

impl<Case: FileCase, Random: Iterator<Item = Case>> Writer<Case, Random> {
    /// Does the command that the words spell.
    fn obey(&self, words: &[&str]) -> Result<(), String> {
        match *words {
            ["record", out] => self.record(out),
            ["random", seed, count, out] => self.write_random(seed, count, out),
            ["spoil", from, out] => self.write_spoiled(from, out, usize::MAX),
            ["spoil", from, out, count] => self.write_spoiled(from, out, count_of(count)?),
            ["part", from, out, first, count] => {
                self.write_part(from, out, count_of(first)?, count_of(count)?)
            }
            ["one", seed, place, out] => self.write_one(seed, place, out, &Kept::All),
            ["one", seed, place, out, kept] => {
                self.write_one(seed, place, out, &Kept::these(kept)?)
            }
            _ => Err(usage(self.name)),
        }
    }

    /// Writes the recorded sample.
    fn record(&self, out: &str) -> Result<(), String> {
        let (space, cases) = (self.recorded)();
        write_counted(out, &space, cases.into_iter())
    }

    /// Writes random cases.
    fn write_random(&self, seed: &str, count: &str, out: &str) -> Result<(), String> {
        let count = count_of(count)?;
        let (space, cases) = (self.random)(seed_of(seed)?);
        write_counted(out, &space, cases.take(count))
    }

    /// Writes some cases of a file, from a place on.
    fn write_part(&self, from: &str, out: &str, first: usize, count: usize) -> Result<(), String> {
        let (space, cases) = case_file::read::<Case>(from)?;
        let cases = cases.into_iter().skip(first).take(count);
        write(out, &space, cases).map(|_| ())
    }

    /// Writes one random case, with the calls that are kept, and prints how many calls it has with all.
    fn write_one(&self, seed: &str, place: &str, out: &str, kept: &Kept) -> Result<(), String> {
        let [seed, place] = [seed_of(seed)?, count_of(place)? as u64];
        let (space, mut cases) = (self.random)(seed);
        let (case, calls) = match (self.with_calls, kept) {
            (Some(with_calls), _) => with_calls(seed, place as usize, kept),
            (None, Kept::All) => (cases.nth(place as usize).ok_or("no such case")?, 1),
            (None, _) => return Err(format!("a case of {} is one call", self.name)),
        };
        write(out, &space, std::iter::once(case))?;
        println!("calls {calls}");
        Ok(())
    }

    /// Writes the first cases of a file, each spoiled.
    fn write_spoiled(&self, from: &str, out: &str, count: usize) -> Result<(), String> {
        let (space, cases) = case_file::read(from)?;
        let count = count.min(cases.len());
        let space = format!("{space}; the first {count} cases, {}", self.spoiling);
        let cases = cases.into_iter().take(count).enumerate();
        let spoiled = cases.map(|(place, case)| (self.spoiled)(place, case));
        write(out, &space, spoiled)?;
        println!("spoiled cases {count}");
        Ok(())
    }
}

/// Writes the file, and prints how many cases of each sort it holds.
fn write_counted<Case: FileCase>(
    out: &str,
    space: &str,
    cases: impl Iterator<Item = Case>,
) -> Result<(), String> {
    let figures = write(out, space, cases)?;
    println!("{figures}");
    Ok(())
}

fn write<Case: FileCase>(
    out: &str,
    space: &str,
    cases: impl Iterator<Item = Case>,
) -> Result<Case::Figures, String> {
    case_file::write(out, space, cases).map_err(|fault| format!("{out}: {fault}"))
}

fn seed_of(seed: &str) -> Result<u64, String> {
    seed.parse().map_err(|_| format!("no seed: {seed}"))
}

fn count_of(count: &str) -> Result<usize, String> {
    count.parse().map_err(|_| format!("no count: {count}"))
}

fn usage(name: &str) -> String {
    let commands = [
        "record OUT",
        "random SEED COUNT OUT",
        "spoil IN OUT [COUNT]",
        "part IN OUT FIRST COUNT",
        "one SEED PLACE OUT [CALL,..]",
    ];
    let lines = commands.map(|command| format!("{name} {command}"));
    format!("usage: {}", lines.join(" | "))
}

#[cfg(test)]
mod tests {
    use super::*;

    #[test]
    fn the_usage_names_the_program_before_each_command() {
        let line = "usage: a record OUT | a random SEED COUNT OUT | a spoil IN OUT [COUNT] | a part IN OUT FIRST COUNT | a one SEED PLACE OUT [CALL,..]";
        assert_eq!(usage("a"), line);
    }
}
