//! Lines of a day file.
use crate::drawn::texts::{any, spoiled};
use crate::readings::day_lines::{ACCEPTANCES, COMMANDS, DRAFTERS, POLICIES, PRICES};
use crate::turn::{Mixture, Turn};
use numbers::dice::Dice;
use numbers::field_texts::field_of;
use numbers::{decimal_texts, whole_texts};

/// What each command's line looks like, its numbers as letters: w a whole number, d a decimal, l a
/// list of decimals, i a list of whole numbers, f a file.
const LINES: &[&str] = &[
    "gamma,w",
    "policy,fixed",
    "policy,goodput_budget",
    "policy,gated_budget",
    "policy,gated_aggregate",
    "acceptance,constant,d",
    "acceptance,per_position,l",
    "acceptance,trace,f",
    "drafter,fraction,d",
    "drafter,autoregressive,d,d,w,w,w",
    "drafter,block_parallel,d,w",
    "drafter,none",
    "switch,w,w,d",
    "switch,w,none,d",
    "rates,d,d,d",
    "roofline,l",
    "table,f",
    "loaded,l",
    "prices,default",
    "prices,bridged",
    "plan,w,w,d,w,l",
    "plan,w,w,d,w,i",
    "collect,w,w",
    "withdraw",
    "series",
    "series,bits",
    "day",
    "settles,w,w",
    "",
];

/// What may stand around a field, and behind a line.
const BLANKS: &[&str] = &["", "", "", " ", "\t", "  ", "\r", "\x0b\x0c"];
const COMMENTS: &[&str] = &["", "", "", "#", " # gamma,4", "\t#,,,"];

/// Fields that are told from others by little: numbers of too many digits and just as many as there may
/// be.
const OTHERS: &[&str] = &[
    "bits",
    "none",
    "1234567890123456",
    "0.00000000000000000000001",
    "4294967295",
    "4294967296",
];

/// A line as a day file has it.
pub fn good(dice: &mut Dice) -> Vec<u8> {
    let template = dice.pick(LINES);
    let has_blanks = dice.once_in(3);
    let mut line = Vec::new();
    for (place, field) in template.split(',').enumerate() {
        if place > 0 {
            line.push(b',');
        }
        let [before, after] = [0; 2].map(|_| match has_blanks {
            true => dice.pick(BLANKS).as_bytes(),
            false => b"",
        });
        let filled = filled(field, dice);
        line.extend([before, &filled, after].concat());
    }
    line.extend(dice.pick(COMMENTS).as_bytes());
    line
}

fn filled(field: &str, dice: &mut Dice) -> Vec<u8> {
    match field {
        "w" => whole(dice),
        "d" => decimal(dice),
        "l" => list(decimal, dice),
        "i" => list(whole, dice),
        "f" => b"busy-bank.csv".to_vec(),
        name => name.as_bytes().to_vec(),
    }
}

fn whole(dice: &mut Dice) -> Vec<u8> {
    match dice.below(4) {
        0 => field_of(whole_texts::random_number, dice),
        _ => dice.below(100).to_string().into_bytes(),
    }
}

fn decimal(dice: &mut Dice) -> Vec<u8> {
    match dice.below(4) {
        0 => field_of(decimal_texts::random_read, dice),
        _ => format!("0.{}", dice.below(1000)).into_bytes(),
    }
}

fn list(number: fn(&mut Dice) -> Vec<u8>, dice: &mut Dice) -> Vec<u8> {
    let count = dice.between(1, 12);
    let numbers: Vec<Vec<u8>> = (0..count).map(|_| number(dice)).collect();
    numbers.join(&b',')
}

/// Fields that are names or numbers, in any order, behind a command's name mostly.
fn mixed(dice: &mut Dice) -> Vec<u8> {
    let command = dice.pick(&COMMANDS).0.as_bytes().to_vec();
    let first = (!dice.once_in(4)).then_some(command);
    let count = dice.between(0, 6);
    let fields = (0..count).map(|_| match dice.below(8) {
        0 => whole(dice),
        1 => decimal(dice),
        2 => field_of(decimal_texts::random, dice),
        3 => field_of(whole_texts::random, dice),
        4 => dice.pick(OTHERS).as_bytes().to_vec(),
        _ => name(dice),
    });
    let fields: Vec<Vec<u8>> = first.into_iter().chain(fields).collect();
    fields.join(&b',')
}

/// A name that some list has.
fn name(dice: &mut Dice) -> Vec<u8> {
    let names: &[&str] = match dice.below(5) {
        0 => &POLICIES,
        1 => &ACCEPTANCES,
        2 => &DRAFTERS,
        3 => &PRICES,
        _ => return dice.pick(&COMMANDS).0.as_bytes().to_vec(),
    };
    dice.pick(names).as_bytes().to_vec()
}

/// A name alone, or what is none.
pub fn any_name(turn: &mut Turn) -> Vec<u8> {
    let dice = &mut turn.dice;
    match turn.mixture {
        Mixture::Random => any(turn),
        Mixture::Special => {
            let mut name = name(dice);
            match dice.below(3) {
                0 => name.make_ascii_uppercase(),
                1 => name.push(b' '),
                _ => name.truncate(dice.between(0, name.len())),
            }
            name
        }
        Mixture::Damaged => spoiled(name(dice), dice),
        Mixture::Good => name(dice),
    }
}

pub fn line(turn: &mut Turn) -> Vec<u8> {
    let dice = &mut turn.dice;
    match turn.mixture {
        Mixture::Random => any(turn),
        Mixture::Special => mixed(dice),
        Mixture::Damaged => spoiled(good(dice), dice),
        Mixture::Good => good(dice),
    }
}

/// Letters of a shape; a letter that stands for nothing among them.
pub fn shape(turn: &mut Turn) -> Vec<u8> {
    let known: &[&[u8]] = &[
        b"tw", b"tp", b"tm", b"ttd", b"tt*", b"ttt", b"ttddwww", b"ttdw", b"tt", b"twnd", b"tddd",
        b"t*", b"twwdw*", b"tww", b"t",
    ];
    let dice = &mut turn.dice;
    match turn.mixture {
        Mixture::Random => any(turn),
        Mixture::Good => dice.pick(known).to_vec(),
        Mixture::Damaged => spoiled(dice.pick(known).to_vec(), dice),
        Mixture::Special => {
            let count = dice.between(0, 8);
            (0..count).map(|_| dice.pick(b"twdnpm*ttwd*x")).collect()
        }
    }
}
