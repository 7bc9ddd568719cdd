//! The file of cases: a first line `# ` and a sentence that says the space, then the lines of the
//! cases.
use std::fmt::Display;
use std::fs::{self, File};
use std::io::{self, BufWriter, Write};

/// A case that a file can hold.
pub trait FileCase: Sized {
    /// How many cases of each sort a file holds.
    type Figures: Default + Display;

    /// Adds the case to the figures.
    fn count_in(&self, figures: &mut Self::Figures);

    /// The bytes of the case, its newline included.
    fn line(&self) -> Vec<u8>;

    /// The first case of the bytes, and what follows it; none where they do not start with a line.
    fn split(bytes: &[u8]) -> Option<(Self, &[u8])>;
}

/// Writes the file, and counts what is in it.
pub fn write<Case: FileCase>(
    path: &str,
    space: &str,
    cases: impl Iterator<Item = Case>,
) -> io::Result<Case::Figures> {
    let mut out = BufWriter::new(File::create(path)?);
    let mut figures = Case::Figures::default();
    writeln!(out, "# {space}")?;
    for case in cases {
        out.write_all(&case.line())?;
        case.count_in(&mut figures);
    }
    out.flush()?;
    Ok(figures)
}

/// The file's sentence and its cases.
pub fn read<Case: FileCase>(path: &str) -> Result<(String, Vec<Case>), String> {
    let bytes = fs::read(path).map_err(|fault| format!("{path}: {fault}"))?;
    let end = bytes.iter().position(|&byte| byte == b'\n').unwrap_or(0);
    let first = String::from_utf8_lossy(&bytes[..end]);
    let space = first
        .strip_prefix("# ")
        .ok_or(format!("{path}: no first line"))?;
    let mut cases = Vec::new();
    let mut rest = &bytes[end + 1..];
    while !rest.is_empty() {
        let (case, after) = Case::split(rest)
            .ok_or_else(|| format!("{path}: case {} is malformed", cases.len() + 1))?;
        cases.push(case);
        rest = after;
    }
    Ok((space.to_string(), cases))
}
