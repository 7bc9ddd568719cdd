//! Counts that are printed as lines, added up line by line: `c 189; refused 61 (11: 1, 12: 21)`.
//! A line's parts stand between `;` or in brackets, a part's counts between commas, each behind its
//! name; a part may have a name of its own, before a colon or before a number that names a count.
use std::fmt::{self, Display};

/// Named counts, in the order in which they were met first.
#[derive(Clone, Debug, Default, PartialEq, Eq)]
struct Part {
    /// What tells the part from others of its line.
    head: String,
    name: String,
    counts: Vec<(String, u64)>,
    /// Whether it stands in brackets behind the part before it.
    is_inside: bool,
}

#[derive(Clone, Debug, Default, PartialEq, Eq)]
pub struct Tally {
    lines: Vec<Vec<Part>>,
}

/// The name of a count of which the largest is kept, not the sum.
const LARGEST: &str = "at most";

impl Tally {
    /// Adds the counts of a line; one without counts adds none.
    pub fn add(&mut self, line: &str) {
        let parts = parts_of(line);
        let Some(head) = parts.first().map(|part| &part.head) else {
            return;
        };
        match self.lines.iter_mut().find(|line| line[0].head == *head) {
            Some(line) => parts.into_iter().for_each(|part| add_part(line, part)),
            None => self.lines.push(parts),
        }
    }

    /// Calls the lines that a letter heads by another name.
    pub fn named(mut self, names: &[(&str, &str)]) -> Tally {
        for line in &mut self.lines {
            let head = &mut line[0].counts[0].0;
            if let Some((_, name)) = names.iter().find(|(letter, _)| letter == head) {
                *head = name.to_string();
            }
        }
        self
    }
}

/// The name of the part that counts shapes.
const SHAPES: &str = "shapes";

impl Tally {
    /// How many shapes were met, each once for each line.
    pub fn shapes(&self) -> usize {
        let parts = self.lines.iter().flatten();
        let shapes = parts.filter(|part| part.name == SHAPES);
        shapes.map(|part| part.counts.len()).sum()
    }
}

fn add_part(line: &mut Vec<Part>, more: Part) {
    let Some(part) = line.iter_mut().find(|part| part.head == more.head) else {
        line.push(more);
        return;
    };
    for (name, n) in more.counts {
        match part.counts.iter_mut().find(|count| count.0 == name) {
            Some(count) if name == LARGEST => count.1 = count.1.max(n),
            Some(count) => count.1 += n,
            None => part.counts.push((name, n)),
        }
    }
    if part.counts.iter().all(|(name, _)| is_number(name)) {
        part.counts
            .sort_by_key(|(name, _)| name.parse::<u64>().ok());
    }
}

fn is_number(name: &str) -> bool {
    !name.is_empty() && name.bytes().all(|byte| byte.is_ascii_digit())
}

fn parts_of(line: &str) -> Vec<Part> {
    let mut parts: Vec<Part> = Vec::new();
    for piece in line.split_inclusive([';', '(', ')']) {
        let is_inside = piece.ends_with(')');
        let mut part = part_of(piece.trim_end_matches([';', '(', ')']));
        if part.counts.is_empty() {
            continue;
        }
        if is_inside {
            let before = parts.last().map_or("", |part| &part.head);
            part.head = format!("{before} (");
        }
        parts.push(Part { is_inside, ..part });
    }
    parts
}

fn part_of(text: &str) -> Part {
    let mut part = Part::default();
    for item in text.split(',').flat_map(apart) {
        let Some((name, n)) = count_of(item.trim()) else {
            continue;
        };
        let (of_part, name) = apart_from_part(name);
        if part.counts.is_empty() {
            part.name = of_part.to_string();
            let head = if of_part.is_empty() { name } else { of_part };
            part.head = head.to_string();
        }
        part.counts.push((name.to_string(), n));
    }
    part
}

/// `run 5: decimals 3` has two counts.
fn apart(item: &str) -> Vec<&str> {
    if let Some((first, second)) = item.split_once(": ") {
        let has_count = first.ends_with(|last: char| last.is_ascii_digit());
        if has_count && second.starts_with(|first: char| first.is_alphabetic()) {
            return vec![first, second];
        }
    }
    vec![item]
}

/// A name and the number behind it.
fn count_of(item: &str) -> Option<(&str, u64)> {
    let name = item.trim_end_matches(|last: char| last.is_ascii_digit());
    let n = item[name.len()..].parse().ok()?;
    Some((name.trim_end().trim_end_matches(':'), n))
}

/// `banks refused: 1` and `refused 16` are counts 1 and 16 of parts with a name.
fn apart_from_part(name: &str) -> (&str, &str) {
    if let Some((part, name)) = name.split_once(": ") {
        return (part, name);
    }
    match name.rsplit_once(' ') {
        Some(("refused", number)) if is_number(number) => ("refused", number),
        _ => ("", name),
    }
}

impl Display for Part {
    fn fmt(&self, f: &mut fmt::Formatter<'_>) -> fmt::Result {
        if !self.name.is_empty() {
            write!(f, "{}: ", self.name)?;
        }
        let counts = self.counts.iter().map(|(name, n)| match is_number(name) {
            true => format!("{name}: {n}"),
            false => format!("{name} {n}").trim_start().to_string(),
        });
        f.write_str(&counts.collect::<Vec<_>>().join(", "))
    }
}

impl Display for Tally {
    fn fmt(&self, f: &mut fmt::Formatter<'_>) -> fmt::Result {
        for line in &self.lines {
            write!(f, "  {}", line[0])?;
            for part in &line[1..] {
                match part.is_inside {
                    true => write!(f, " ({part})")?,
                    false => write!(f, "; {part}")?,
                }
            }
            writeln!(f)?;
        }
        Ok(())
    }
}

#[cfg(test)]
mod tests {
    use super::*;

    fn added(lines: &[&str]) -> String {
        let mut tally = Tally::default();
        lines.iter().for_each(|line| tally.add(line));
        tally.to_string()
    }

    #[test]
    fn counts_of_like_lines_are_added() {
        let lines = [
            "c 3; refused 2 (12: 2)",
            "c 4; refused 2 (11: 1, 12: 1)",
            "d 1; refused 0",
        ];
        assert_eq!(
            added(&lines),
            "  c 7; refused 4 (11: 1, 12: 3)\n  d 1; refused 0\n"
        );
        let lines = [
            "run 5: decimals 3, seconds 2",
            "run 1: decimals 1, seconds 0",
        ];
        assert_eq!(added(&lines), "  run 6, decimals 4, seconds 2\n");
        assert_eq!(added(&["no count", ""]), "");
    }

    #[test]
    fn parts_with_names_are_told_apart() {
        let lines = ["banks refused: 1: 82, 16: 2", "banks refused: 3: 1, 16: 1"];
        assert_eq!(added(&lines), "  banks refused: 1: 82, 3: 1, 16: 3\n");
        let lines = [
            "alone: over 15 digits: 2, byte above 127: 1",
            "alone: byte above 127: 1",
        ];
        assert_eq!(
            added(&lines),
            "  alone: over 15 digits 2, byte above 127 2\n"
        );
        let lines = [
            "calls 7, at most 5; refused 16: 2",
            "calls 7, at most 4; refused 16: 1, 21: 1",
        ];
        assert_eq!(
            added(&lines),
            "  calls 14, at most 5; refused: 16: 3, 21: 1\n"
        );
    }

    #[test]
    fn letters_get_their_names() {
        let mut tally = Tally::default();
        tally.add("c 3; refused 2");
        let tally = tally.named(&[("c", "decide")]);
        assert_eq!(tally.to_string(), "  decide 3; refused 2\n");
    }
}
