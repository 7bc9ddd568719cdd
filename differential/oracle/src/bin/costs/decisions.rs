//! Cases of switching: walks, decisions, and stalls that are collected.
use crate::unchanged;
use numbers::dice::Dice;
use numbers::word_case::{listed, WordCase};
use oracle::costs::switches::{curve, record, switch, width, COSTS, INFINITY, STEPS};
use oracle::costs::switching::{decided, first, walked, Record, Switch};
use oracle::drafter_values::SPECIALS;

/// Where the walk ends; the candidates ascend.
pub fn walk(candidates: &[u32], width: u32, target: u32, max_step: Option<u32>) -> WordCase {
    let ours = walked(candidates, width, target, max_step);
    let rust = unchanged::walked(candidates, width, target, max_step);
    assert_eq!(
        ours, rust,
        "{width} to {target} over {candidates:?} by {max_step:?}"
    );
    let step = max_step.map_or([0, 0], |step| [1, step.into()]);
    let mut input = vec![width.into(), target.into(), step[0], step[1]];
    input.extend(listed(candidates.iter().map(|&candidate| candidate.into())));
    WordCase::new(b'k', input, vec![0, ours.into()])
}

/// One decision after the first, over a record by value and where it stands: a case of each.
pub fn decision(record: Record, curve: &[u64], target: u32, switch: Switch) -> [WordCase; 2] {
    let ours = decided(record, curve, target, switch);
    if let Ok(after) = ours {
        let rust = unchanged::decided(record, curve, target, switch);
        assert_eq!(after, rust, "{record:x?} {curve:x?} {target} {switch:x?}");
    }
    let mut input = [record.words(), vec![target.into()], switch.words()].concat();
    input.extend(listed(curve.iter().copied()));
    let answer = decided_words(ours, record);
    [b'c', b'l'].map(|letter| {
        WordCase::new(letter, input.clone(), answer.clone()).with_traits(&[
            ("stalled", record.stall > 0),
            ("with holes", curve.contains(&INFINITY)),
            (
                "changed",
                ours.is_ok_and(|after| after.width != record.width),
            ),
        ])
    })
}

/// The refusal, the width, and the record as it is kept.
fn decided_words(ours: Result<Record, u8>, before: Record) -> Vec<u64> {
    match ours {
        Ok(after) => [vec![0, after.width.into()], after.words()].concat(),
        Err(number) => [vec![number.into(), 0], kept(before)].concat(),
    }
}

/// A record that was lent, any NaN as it is written.
fn kept(record: Record) -> Vec<u64> {
    let stall = numbers::word_case::bits_of(f64::from_bits(record.stall));
    Record { stall, ..record }.words()
}

pub fn first_decision(target: u32) -> WordCase {
    let ours = first(target);
    if let Ok(record) = ours {
        assert_eq!(record, unchanged::first(target));
    }
    let none = Record {
        width: 0,
        rounds: 0,
        stall: 0,
    };
    WordCase::new(b'i', vec![target.into()], decided_words(ours, none))
}

/// The stall of a record is collected, by value and where it stands.
pub fn collected(record: Record) -> [WordCase; 2] {
    let refusal = record.refusal();
    let answer = if refusal > 0 {
        [vec![refusal.into(), 0], kept(record)].concat()
    } else {
        let after = Record { stall: 0, ..record };
        assert_eq!((record.stall, after), unchanged::collected(record));
        [vec![0, record.stall], after.words()].concat()
    };
    [b'e', b'n'].map(|letter| {
        WordCase::new(letter, record.words(), answer.clone())
            .with_traits(&[("stalled", record.stall > 0)])
    })
}

/// What is wrong with a record.
pub fn record_refusal(record: Record) -> WordCase {
    WordCase::new(b'o', record.words(), vec![record.refusal().into()])
}

/// What is wrong with a setting, and whether it is unconstrained.
pub fn setting(switch: Switch) -> [WordCase; 2] {
    let is_unconstrained = switch.is_unconstrained();
    assert_eq!(
        is_unconstrained,
        unchanged::is_unconstrained(switch),
        "{switch:x?}"
    );
    [
        WordCase::new(b'u', switch.words(), vec![switch.refusal().into()]),
        WordCase::new(b'a', switch.words(), vec![0, is_unconstrained.into()]),
    ]
}

/// Every width and target over a few lists of candidates, by every number of steps.
pub fn every_walk() -> Vec<WordCase> {
    let mut cases = Vec::new();
    let lists: [&[u32]; 6] = [
        &[],
        &[0],
        &[3],
        &[0, 2, 4, 6],
        &[1, 5, 64],
        &[2, 3, u32::MAX],
    ];
    for candidates in lists {
        for width in [0, 1, 2, 3, 4, 5, 6, 7, 64, u32::MAX] {
            for target in [0, 2, 3, 4, 5, 6, 64, u32::MAX] {
                for max_step in [None, Some(0), Some(1), Some(2), Some(u32::MAX)] {
                    cases.push(walk(candidates, width, target, max_step));
                }
            }
        }
    }
    cases
}

/// Each special value in each place of a decision in turn.
pub fn specials() -> Vec<WordCase> {
    let record = Record {
        width: 3,
        rounds: 1,
        stall: 0x3f50_0000_0000_0000,
    };
    let switch = Switch {
        cooldown_rounds: 2,
        max_step: Some(1),
        cost_ms: 0x4014_0000_0000_0000,
    };
    let curve = [
        0x3ff0_0000_0000_0000,
        INFINITY,
        0,
        INFINITY,
        BILLION,
        1,
        INFINITY,
    ];
    const BILLION: u64 = 0x41cd_cd65_0000_0000;
    let mut cases = Vec::new();
    for &special in SPECIALS.iter().chain(COSTS) {
        let stalled = Record {
            stall: special,
            ..record
        };
        let costly = Switch {
            cost_ms: special,
            ..switch
        };
        let mut other = curve;
        other[2] = special;
        cases.extend(decision(stalled, &curve, 5, switch));
        cases.extend(decision(record, &curve, 5, costly));
        cases.extend(decision(record, &other, 0, switch));
        cases.extend(collected(stalled));
        cases.push(record_refusal(stalled));
        cases.extend(setting(costly));
        let loose = Switch {
            cooldown_rounds: 1,
            max_step: None,
            cost_ms: special,
        };
        cases.extend(setting(loose));
    }
    for number in [
        0,
        1,
        2,
        3,
        63,
        64,
        65,
        1000,
        u32::MAX - 2,
        u32::MAX - 1,
        u32::MAX,
    ] {
        let wide = Record {
            width: number,
            ..record
        };
        let late = Record {
            rounds: number,
            ..record
        };
        for record in [wide, late] {
            cases.extend(decision(record, &curve, 5, switch));
            cases.extend(collected(record));
            cases.push(record_refusal(record));
        }
        let cool = Switch {
            cooldown_rounds: number,
            ..switch
        };
        let far = Switch {
            max_step: Some(number),
            ..switch
        };
        for switch in [cool, far] {
            cases.extend(decision(record, &curve, 0, switch));
            cases.extend(setting(switch));
            cases.extend(setting(Switch {
                cost_ms: 0,
                max_step: None,
                ..switch
            }));
        }
        cases.extend(decision(record, &curve, number, switch));
        cases.push(first_decision(number));
    }
    for length in [0, 1, 64, 65, 66, 67] {
        cases.extend(decision(record, &vec![0; length], 64, switch));
        cases.extend(decision(record, &vec![INFINITY; length], 2, switch));
    }
    cases
}

/// Any of them, mostly in range.
pub fn random(dice: &mut Dice) -> WordCase {
    match dice.below(32) {
        0 => first_decision(width(dice)),
        1 => record_refusal(record(dice)),
        2 => one_of(setting(switch(dice)), dice),
        3 | 4 => one_of(collected(record(dice)), dice),
        5..=12 => random_walk(dice),
        _ => {
            let (record, curve) = (record(dice), curve(dice));
            one_of(decision(record, &curve, width(dice), switch(dice)), dice)
        }
    }
}

fn one_of([first, second]: [WordCase; 2], dice: &mut Dice) -> WordCase {
    if dice.once_in(2) {
        first
    } else {
        second
    }
}

fn random_walk(dice: &mut Dice) -> WordCase {
    let most = dice.pick(&[3, 12, 64, 64]);
    let chance = dice.between(1, 4) as u64;
    let mut candidates: Vec<u32> = (0..=most).filter(|_| dice.once_in(chance)).collect();
    if dice.once_in(16) {
        candidates.push(dice.pick(&[65, 1000, u32::MAX]));
    }
    walk(&candidates, width(dice), width(dice), dice.pick(STEPS))
}
