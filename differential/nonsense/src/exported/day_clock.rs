//! `day_clock`: the seconds of the plans that stand.
use crate::exported::compare;
use crate::function::{plain, Function};
use crate::lent::Lent;
use crate::readings::clock;
use crate::turn::{Mixture, Turn};
use numbers::dice::Dice;

// Of a clock the address of a lent buffer and how many words it has.
unsafe extern "C" {
    fn day_clock_passed(clock: *mut u64, len: usize, second: u64) -> u64;
    fn day_clock_changed(clock: *mut u64, len: usize);
    fn day_clock_taken_back(clock: *mut u64, len: usize);
}

pub fn functions() -> Vec<Box<dyn Function>> {
    vec![
        of_clock(
            "day_clock_passed",
            |words, second| unsafe { day_clock_passed(words.at_mut(), words.len(), second) },
            clock::passed,
        ),
        of_clock(
            "day_clock_changed",
            |words, _| {
                unsafe { day_clock_changed(words.at_mut(), words.len()) };
                0
            },
            |words, _| {
                clock::changed(words);
                0
            },
        ),
        of_clock(
            "day_clock_taken_back",
            |words, _| {
                unsafe { day_clock_taken_back(words.at_mut(), words.len()) };
                0
            },
            |words, _| {
                clock::taken_back(words);
                0
            },
        ),
    ]
}

/// The words of a clock: 66 of them, or about as many; marks near a second.
fn drawn_clock(second: u64, turn: &mut Turn) -> Vec<u64> {
    let dice = &mut turn.dice;
    let count = match dice.below(8) {
        0 => dice.between(0, 70),
        1 => dice.pick(&[0, 1, 2, 64, 65]),
        2 => dice.between(66, 140),
        _ => 66,
    };
    let mark = |dice: &mut Dice| match turn.mixture {
        Mixture::Random => dice.bits(),
        Mixture::Special => dice.pick(&[0, 1, 63, 64, 65, u64::MAX - 1, u64::MAX, second]),
        _ => second.wrapping_add(dice.below(4)),
    };
    let mut words: Vec<u64> = (0..count).map(|_| mark(dice)).collect();
    let is_good = matches!(turn.mixture, Mixture::Good | Mixture::Damaged);
    if let Some(kept) = words.first_mut().filter(|_| is_good) {
        *kept = dice.below(65);
    }
    if turn.mixture == Mixture::Damaged && count > 0 {
        words[dice.between(0, count - 1)] = dice.bits();
    }
    words
}

fn of_clock(
    name: &'static str,
    call: fn(&mut Lent<u64>, u64) -> u64,
    define: fn(&mut [u64], u64) -> u64,
) -> Box<dyn Function> {
    let mut lent = Lent::new();
    plain(name, &[], move |turn| {
        let second = match turn.dice.below(4) {
            0 => turn.dice.bits(),
            1 => turn.dice.pick(&[0, 1, u64::MAX - 1, u64::MAX]),
            _ => turn.dice.below(100_000),
        };
        let mut words = drawn_clock(second, turn);
        turn.tell("second", second);
        turn.lend("clock", &mut lent, &words);
        let answered = call(&mut lent, second);
        compare(turn, answered, define(&mut words, second));
        turn.left("clock", &lent, &words);
    })
}
