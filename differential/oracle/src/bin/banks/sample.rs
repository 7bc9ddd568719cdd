//! The recorded sample: the same cases on every machine, each once.
use crate::case::Case;
use crate::models;
use crate::values;
use numbers::dice::Dice;
use numbers::sampling::in_turn;
use numbers::{decimal_texts, spellings, whole_texts};
use oracle::banks::bank_texts::{self, one_less, Table};
use oracle::banks::lent::{Room, LARGEST};

const SEED: u64 = 1;

/// The sentence that says the space.
pub fn space() -> String {
    format!(
        "space: trace banks at every limit that their room allows, numbers at the edges of the \
         rules in them, faulty and damaged copies; acceptance models with draws, special values at \
         every place; their values at positions in the list and past it; seed {SEED}"
    )
}

/// The groups are dealt one case of each in turn, so that any beginning of the sample holds some of
/// every group.
pub fn recorded() -> Vec<Case> {
    let dice = &mut Dice::new(SEED);
    let mut groups = bank_groups(dice);
    groups.extend(model_groups(dice));
    groups.extend(value_groups(dice));
    in_turn(&groups)
}

fn bank_groups(dice: &mut Dice) -> Vec<Vec<Case>> {
    let small = |_| {
        let (text, room) = bank_texts::random(Table::small, dice);
        Case::bank(&text, room)
    };
    let small = (0..200).map(small).collect();
    vec![
        lines_and_fields(),
        column_limits(dice),
        rooms(dice),
        numbers_in_a_row(),
        small,
    ]
}

fn model_groups(dice: &mut Dice) -> Vec<Vec<Case>> {
    let small = (0..1000).map(|_| models::small(dice)).collect();
    let random = (0..60).map(|_| models::random(dice)).collect();
    let groups = [models::specials(), models::limits(), random, small];
    let cases = |models: &Vec<_>| models.iter().map(Case::model).collect();
    groups.iter().map(cases).collect()
}

fn value_groups(dice: &mut Dice) -> Vec<Vec<Case>> {
    let random = (0..160).map(|_| values::random(dice)).collect();
    let groups = [values::specials(), values::limits(), random];
    let case = |(model, position): &values::Asked| Case::value(model, *position);
    let cases = |asked: &Vec<_>| asked.iter().map(case).collect();
    groups.iter().map(cases).collect()
}

/// Lines and fields where their rules turn.
const TEXTS: &[&str] = &[
    "",
    "\n",
    "\r\n",
    "\r",
    ",",
    "commits",
    "commits\n",
    "commits,",
    "commits,a",
    "commits,a\r",
    "commits,a\n",
    "commits,a\r\n",
    "commits,a\n1,2",
    "commits,a\n1,2\n",
    "commits,a\r\n1,2\r\n",
    "commits,a\n1,2\r\n",
    "commits,a\r\n1,2\n",
    "commits,a\n1,2\r",
    "commits,a\n1,2\r\r\n",
    "commits,a\r\r\n1,2\n",
    "commits,a\n1,2\n\r",
    "commits,a\n1,2\n\r\n",
    "commits,a\n1,2\n\n",
    "commits,a\n\n1,2\n",
    "\ncommits,a\n1,2\n",
    "commits,a\n\r\n",
    "commits,a\n1,2\n,\n",
    "commits,a\n1,2,\n",
    "commits,a\n1\n",
    "commits,a\n,1\n",
    "commits,a\n1,\n",
    "commits,a\n,\n",
    "commits,a\n1, 2\n",
    "commits,a\n 1,2\n",
    "commits,a\n1,2 \n",
    "commits,a\n1;2\n",
    "commits;a\n1;2\n",
    "commits,a,\n1,2,3\n",
    "commits,a,\n1,,3\n",
    "commits,a,b\n1,x,3\n",
    "commits,b,a\n1,x,3\n",
    "commits,b,a\n1,3,x\n",
    "commits,a,b,a\n1,x,2,3\n",
    "commits,a,b,a\n1,2,3,x\n",
    "commits,commits,a\n1,2,3\n",
    "commits,b\n1,2\n",
    "commits,A\n1,2\n",
    "commits, a\n1,2\n",
    "Commits,a\n1,2\n",
    "commits ,a\n1,2\n",
    " commits,a\n1,2\n",
    "commit,a\n1,2\n",
    "commitsa,a\n1,2\n",
    "a,commits\n1,2\n",
    "commits,a\n1,2\ncommits,a\n",
    "commits,a\n1,2\n1,2\n1,2\n",
    "commits,a\n0,-0\n",
    "commits,a\n4294967295,999999999999999\n0,-.0\n",
    "commits,a\n1,inf\n",
    "commits,a\n1,x\n2,3,4\n",
    "commits,a\n1,2,3\n2,x\n",
    "commits,a\nx,y\n",
    "commits,a,a\n1,x,1234567890123456\n",
    "commits,a,a\n1,1234567890123456,x\n",
    "commits,a\n1,2\n1,1234567890123456\n",
    "commits,a\n1,2\n1,0.00000000000000000000001\n",
    "commits,b,a\n1,\u{e9},2\n",
    "commits,\u{e9},a\n1,1,2\n",
    "commits,a\n1,2\u{e9}\n",
    "\u{feff}commits,a\n1,2\n",
    "\u{80}",
    "\u{7f}",
    "commits,a\0\n1,2\n",
    "commits,a\n1\0,2\n",
];

/// Each with room for more, and with the room of one round; and bytes that are no UTF-8.
fn lines_and_fields() -> Vec<Case> {
    let mut cases = Vec::new();
    for text in TEXTS {
        cases.push(Case::bank(text.as_bytes(), Room::exactly(4, 3)));
        cases.push(Case::bank(text.as_bytes(), Room::exactly(1, 1)));
    }
    for text in [&b"\xff"[..], b"commits,a\n1,2\n\x80", b"commits,a\xc3\n"] {
        cases.push(Case::bank(text, LARGEST));
    }
    cases
}

/// Columns and depths at and beside their limits, the curve's room just enough and one slot less.
fn column_limits(dice: &mut Dice) -> Vec<Case> {
    let shapes = [
        (0, 1),
        (0, 63),
        (0, 64),
        (0, 65),
        (63, 64),
        (64, 64),
        (126, 1),
        (127, 1),
        (125, 2),
        (62, 65),
        (70, 70),
    ];
    let mut cases = Vec::new();
    for (others, depth) in shapes {
        let table = Table::new(others, depth, 1, dice);
        let exactly = table.room();
        let text = table.text(dice);
        let curve_short = Room {
            curve: exactly.curve - 1,
            ..exactly
        };
        cases.push(Case::bank(&text, exactly));
        cases.push(Case::bank(&text, curve_short));
    }
    cases
}

/// Small banks in just enough room, in one slot less, in none and in the largest.
fn rooms(dice: &mut Dice) -> Vec<Case> {
    let mut cases = Vec::new();
    for _ in 0..16 {
        let table = Table::small(dice);
        let text = table.text(dice);
        let exactly = table.room();
        let short = one_less(exactly, dice);
        for room in [exactly, LARGEST, short, Room::exactly(0, 0)] {
            cases.push(Case::bank(&text, room));
        }
    }
    cases
}

/// Numbers at the edges of the rules as commits, as a signal and as a field that is not read.
fn numbers_in_a_row() -> Vec<Case> {
    let mut cases = Vec::new();
    let room = Room::exactly(2, 1);
    let mut put = |before: &str, number: &[u8], after: &str| {
        let text = [before.as_bytes(), number, after.as_bytes()].concat();
        cases.push(Case::bank(&text, room));
    };
    for number in spellings::edges().iter().step_by(2) {
        put("commits,a\n1,", number, "\n");
    }
    for number in spellings::edges().iter().skip(1).step_by(6) {
        put("commits,a\n", number, ",1\n");
        put("commits,b,a\n1,", number, ",1\n");
    }
    for number in whole_texts::limits()
        .iter()
        .filter(|text| text.len() < 40)
        .step_by(5)
    {
        put("commits,a\n", number, ",1\n2,3\n");
    }
    for number in decimal_texts::limits()
        .iter()
        .filter(|text| text.len() < 40)
        .step_by(4)
    {
        put("commits,a\n0,.5\n1,", number, "");
    }
    cases
}

#[cfg(test)]
mod tests {
    use super::*;
    use crate::case::Kind;
    use crate::figures::reason;
    use numbers::case::NO_ANSWER;
    use numbers::refusal::Reason;
    use numbers::sampling::assert_steady;
    use std::collections::BTreeSet;

    fn is_bank(case: &&Case) -> bool {
        matches!(case.kind, Kind::Bank(_))
    }

    fn is_value(case: &&Case) -> bool {
        case.kind == Kind::Value
    }

    #[test]
    fn the_sample_is_the_same_each_time_and_of_the_size_wanted() {
        assert_steady(recorded, 2080..=2830, 600_000);
        let cases = recorded();
        let banks = cases.iter().filter(is_bank).count();
        let values = cases.iter().filter(is_value).count();
        let models = cases.len() - banks - values;
        assert!((500..=800).contains(&banks), "{banks} banks");
        assert!((1300..=1700).contains(&models), "{models} models");
        assert!((280..=330).contains(&values), "{values} values");
    }

    #[test]
    fn every_refusal_and_every_reason_is_met() {
        let cases = recorded();
        let refusable = cases.iter().filter(|case| !is_value(case));
        let (banks, models): (Vec<_>, Vec<_>) = refusable.partition(is_bank);
        let met = |cases: &[&Case], column| -> Vec<u8> {
            let numbers = cases.iter().filter_map(|case| case.refusal(column));
            numbers.collect::<BTreeSet<u8>>().into_iter().collect()
        };
        assert_eq!(met(&banks, 0), [1, 2, 3, 4, 5, 6, 7, 10, 11, 16]);
        assert_eq!(met(&models, 0), [11, 12]);
        assert_eq!(met(&models, 1), [11, 12, 13, 14]);
        let alone = banks.iter().filter(|case| case.columns[3] != NO_ANSWER);
        let reasons: BTreeSet<Reason> = alone.filter_map(|case| reason(case)).collect();
        assert_eq!(reasons.len(), 7, "{reasons:?}");
    }

    #[test]
    fn a_beginning_holds_values_and_the_other_kinds_read_and_refused() {
        let (values, beginning): (Vec<_>, Vec<_>) = recorded()
            .into_iter()
            .take(200)
            .partition(|case| is_value(&case));
        assert!(values.len() > 20, "{} values", values.len());
        let holds = |bank: bool, refused: bool| {
            let is_one =
                |case: &Case| is_bank(&case) == bank && case.refusal(0).is_some() == refused;
            beginning.iter().any(is_one)
        };
        assert!(holds(true, true) && holds(true, false));
        assert!(holds(false, true) && holds(false, false));
    }
}
