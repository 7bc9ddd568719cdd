//! What is in a file of cases.
use crate::case::{Case, Kind};
use numbers::case::NO_ANSWER;
use numbers::refusal::Reason;
use oracle::banks::bank;
use std::collections::BTreeMap;
use std::fmt::{self, Display};

#[derive(Debug, Default)]
pub struct Figures {
    banks: usize,
    models: usize,
    values: usize,
    read_by_both: usize,
    refused_by_both: usize,
    /// Banks read by the Rust and refused by the rules.
    rust_alone: BTreeMap<Reason, usize>,
    /// Cases by the number of the refusal.
    bank_refusals: BTreeMap<u8, usize>,
    expected_refusals: BTreeMap<u8, usize>,
    sample_refusals: BTreeMap<u8, usize>,
}

impl Figures {
    pub fn count(&mut self, case: &Case) {
        match case.kind {
            Kind::Bank(_) => self.count_bank(case),
            Kind::Model => self.count_model(case),
            Kind::Value => self.values += 1,
        }
    }

    fn count_bank(&mut self, case: &Case) {
        self.banks += 1;
        let Some(number) = case.refusal(0) else {
            self.read_by_both += 1;
            return;
        };
        add(&mut self.bank_refusals, number);
        if case.columns[3] == NO_ANSWER {
            self.refused_by_both += 1;
        } else if let Some(reason) = reason(case) {
            add(&mut self.rust_alone, reason);
        }
    }

    fn count_model(&mut self, case: &Case) {
        self.models += 1;
        let expected = case.refusal(0);
        let sample = case.refusal(1);
        expected
            .into_iter()
            .for_each(|number| add(&mut self.expected_refusals, number));
        sample
            .into_iter()
            .for_each(|number| add(&mut self.sample_refusals, number));
    }
}

/// Why the rules refuse a bank that the Rust reads.
pub fn reason(case: &Case) -> Option<Reason> {
    let Kind::Bank(room) = case.kind else {
        return None;
    };
    let refusal = bank::read(&case.text, room).err()?;
    Reason::of(&refusal)
}

fn add<Key: Ord>(counts: &mut BTreeMap<Key, usize>, key: Key) {
    *counts.entry(key).or_default() += 1;
}

/// Each key, then its count.
fn listed<Key: Display>(counts: &BTreeMap<Key, usize>) -> String {
    let each = counts.iter().map(|(key, count)| format!("{key}: {count}"));
    each.collect::<Vec<_>>().join(", ")
}

impl fmt::Display for Figures {
    fn fmt(&self, f: &mut fmt::Formatter<'_>) -> fmt::Result {
        let all = self.banks + self.models + self.values;
        writeln!(
            f,
            "cases {all}: banks {}, models {}, values {}",
            self.banks, self.models, self.values
        )?;
        write!(f, "banks read by both {}", self.read_by_both)?;
        writeln!(f, ", refused by both {}", self.refused_by_both)?;
        writeln!(
            f,
            "banks read by the Rust alone: {}",
            listed(&self.rust_alone)
        )?;
        writeln!(f, "banks refused: {}", listed(&self.bank_refusals))?;
        writeln!(
            f,
            "expected values refused: {}",
            listed(&self.expected_refusals)
        )?;
        write!(f, "samples refused: {}", listed(&self.sample_refusals))
    }
}
