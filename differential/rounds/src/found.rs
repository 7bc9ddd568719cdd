//! The smallest case that was found to differ, and the command that repeats it.
use crate::kinds::Kind;
use crate::runner::Runner;
use crate::smaller::{fewest, first_differing};
use std::fmt::{self, Display};
use std::path::Path;

pub struct Found {
    kind: &'static str,
    seed: u64,
    /// Its place among the seed's cases, from 0.
    place: u64,
    /// The places of the calls that are left, where a case has several.
    calls: Option<Vec<usize>>,
    line: String,
}

/// A longer line is not shown to its end.
const SHOWN: usize = 2_000;

/// The first case of the file that differs, with as few calls as it takes.
pub fn smallest(runner: &Runner, kind: &Kind, seed: u64, cases: &Path) -> Result<Found, String> {
    let part = runner.file("part.cases");
    let [from, out] = [cases, &part].map(|path| path.to_str().unwrap_or_default());
    let mut fault = None;
    let mut noted = |differs: Result<bool, String>| {
        differs.unwrap_or_else(|said| {
            fault.get_or_insert(said);
            false
        })
    };
    let count = first_differing(kind.cases, |count| {
        let written = runner.write(kind, &["part", from, out, "0", &count.to_string()]);
        noted(written.and_then(|_| runner.differs(kind, &part)))
    });
    let place = count - 1;
    let [at, of] = [seed, place].map(|n| n.to_string());
    let said = runner.write(kind, &["one", &at, &of, out])?;
    let calls = said
        .trim()
        .strip_prefix("calls ")
        .and_then(|n| n.parse().ok());
    let calls = match calls {
        None | Some(1) => None,
        Some(count) => Some(fewest(count, |kept| {
            let written = runner.write(kind, &["one", &at, &of, out, &places(kept)]);
            noted(written.and_then(|_| runner.differs(kind, &part)))
        })),
    };
    if let Some(fault) = fault {
        return Err(fault);
    }
    if let Some(kept) = &calls {
        runner.write(kind, &["one", &at, &of, out, &places(kept)])?;
    }
    let bytes = std::fs::read(&part).map_err(|fault| fault.to_string())?;
    let line = String::from_utf8_lossy(&bytes)
        .lines()
        .skip(1)
        .collect::<Vec<_>>()
        .join("\n");
    Ok(Found {
        kind: kind.name,
        seed,
        place,
        calls,
        line,
    })
}

fn places(kept: &[usize]) -> String {
    let places: Vec<String> = kept.iter().map(|place| place.to_string()).collect();
    places.join(",")
}

impl Display for Found {
    fn fmt(&self, f: &mut fmt::Formatter<'_>) -> fmt::Result {
        let Found {
            kind, seed, place, ..
        } = self;
        let calls = self.calls.as_ref().map(|kept| format!(" {}", places(kept)));
        let calls = calls.unwrap_or_default();
        let shown: String = self.line.chars().take(SHOWN).collect();
        writeln!(
            f,
            "the smallest case that differs, of {} bytes:",
            self.line.len()
        )?;
        writeln!(f, "{shown}")?;
        writeln!(
            f,
            "again: differential/run case {kind} {seed} {place}{calls}"
        )
    }
}
