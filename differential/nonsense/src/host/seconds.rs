//! The seconds that a drafter takes.
use super::declared::*;
use super::settings::{drafter_of, settings_bits, settings_of_drafter};
use crate::function::{plain, Function};
use crate::lent::Lent;
use crate::turn::{one_nan, Mixture, Turn};
use numbers::dice::Dice;
use oracle::drafter;
use oracle::drafter_values::{self, float_up_to, rate, SPECIALS};

/// What is asked with.
struct Asked {
    settings: Settings,
    rates: drafter::Rates,
    verify_c: u64,
    widths: Vec<u32>,
    loaded: Vec<u64>,
}

pub fn functions() -> Vec<Box<dyn Function>> {
    let (mut widths, mut loaded) = (Lent::<u32>::new(), Lent::<u64>::new());
    let refuses = &[11, 12, 15, 16];
    let call = move |turn: &mut Turn| {
        let asked = asked(turn.mixture, &mut turn.dice);
        turn.tell("settings", asked.settings);
        turn.tell("rates, verify", (asked.rates, asked.verify_c));
        turn.lend("widths", &mut widths, &asked.widths);
        turn.lend("loaded", &mut loaded, &asked.loaded);
        let [peak, bw, kv_delta] =
            [asked.rates.peak, asked.rates.bw, asked.rates.kv_delta].map(f64::from_bits);
        // SAFETY: the buffers are lent whole.
        let answer = unsafe {
            latchmeander_drafter_seconds(
                asked.settings,
                Rates { peak, bw, kv_delta },
                f64::from_bits(asked.verify_c),
                widths.at(),
                widths.len(),
                loaded.floats(),
                loaded.len(),
            )
        };
        let defined = defined(&asked);
        turn.refusal = defined.err().unwrap_or(0).into();
        let seconds = f64::from_bits(defined.unwrap_or(0));
        let defined = (turn.refusal, one_nan(seconds));
        turn.answer((answer.refusal, one_nan(answer.value)), defined);
        turn.left("widths", &widths, &asked.widths);
        turn.left("loaded", &loaded, &asked.loaded);
    };
    vec![plain("latchmeander_drafter_seconds", refuses, call)]
}

fn defined(asked: &Asked) -> Result<u64, u8> {
    let drafter = drafter_of(&asked.settings).ok_or(12)?;
    let lent = drafter::Lent {
        verify_c: asked.verify_c,
        loaded: &asked.loaded,
    };
    drafter.ragged_seconds(&asked.widths, asked.rates, lent)
}

fn asked(mixture: Mixture, dice: &mut Dice) -> Asked {
    let mut asked = match mixture {
        Mixture::Random => any(&mut |dice| dice.bits(), dice),
        Mixture::Special => any(&mut |dice| dice.pick(SPECIALS), dice),
        Mixture::Damaged | Mixture::Good => good(dice),
    };
    if mixture == Mixture::Damaged {
        for _ in 0..dice.between(1, 2) {
            hurt(&mut asked, dice);
        }
    }
    asked
}

fn any(bits: &mut dyn FnMut(&mut Dice) -> u64, dice: &mut Dice) -> Asked {
    let mut settings = settings_bits(bits, dice);
    if dice.once_in(2) {
        let few = [4, 3, 3, 2, 2].map(|end| dice.below(end) as u32);
        [
            settings.policy,
            settings.model,
            settings.drafter,
            settings.steps,
            settings.prices,
        ] = few;
    }
    let rates = [0; 3].map(|_| bits(dice));
    let [widths, loaded] = [0; 2].map(|_| dice.between(0, 9));
    Asked {
        settings,
        rates: drafter::Rates {
            peak: rates[0],
            bw: rates[1],
            kv_delta: rates[2],
        },
        verify_c: bits(dice),
        widths: (0..widths).map(|_| bits(dice) as u32).collect(),
        loaded: (0..loaded).map(|_| bits(dice)).collect(),
    }
}

fn good(dice: &mut Dice) -> Asked {
    let drafter = drafter_values::drafter(dice);
    let n = match dice.below(64) {
        0 => dice.pick(&[1_023, 1_024]),
        1 | 2 => dice.between(10, 100),
        _ => dice.between(0, 9),
    };
    let entries = n + 1 + dice.pick(&[0, 0, 2]);
    let is_read = drafter.is_autoregressive();
    let widest = dice.pick(&[1, 3, 8, 64]);
    Asked {
        settings: settings_of_drafter(drafter, dice),
        rates: drafter::Rates {
            peak: rate(dice),
            bw: rate(dice),
            kv_delta: dice.bits(),
        },
        verify_c: float_up_to(9, dice),
        widths: (0..n).map(|_| dice.below(widest + 1) as u32).collect(),
        loaded: (0..if is_read { entries } else { dice.between(0, 3) })
            .map(|_| float_up_to(6, dice))
            .collect(),
    }
}

fn hurt(asked: &mut Asked, dice: &mut Dice) {
    let special = dice.pick(SPECIALS);
    match dice.below(11) {
        0 => asked.settings.policy = dice.pick(&[3, 4, u32::MAX]),
        1 => asked.settings.drafter = dice.pick(&[0, 1, 2, 3, u32::MAX]),
        2 => asked.settings.steps = dice.pick(&[1, 2, u32::MAX]),
        3 => asked.settings.prices = dice.pick(&[1, 2, u32::MAX]),
        4 => asked.verify_c = special,
        5 => asked.rates.peak = special,
        6 => asked.rates.bw = special,
        7 => asked.widths.resize(dice.pick(&[0, 1, 1_024, 1_025]), 1),
        8 => drop(asked.loaded.pop()),
        9 if !asked.widths.is_empty() => {
            let at = dice.between(0, asked.widths.len() - 1);
            asked.widths[at] = dice.pick(&[64, 65, u32::MAX]);
        }
        _ if !asked.loaded.is_empty() => {
            let at = dice.between(0, asked.loaded.len() - 1);
            asked.loaded[at] = special;
        }
        _ => asked.settings.frac = f64::from_bits(special),
    }
}

/// A drafter of the oracle is written into settings and read back.
#[test]
fn settings_carry_a_drafter() {
    let mut dice = Dice::new(5);
    for _ in 0..100 {
        let drafter = drafter_values::drafter(&mut dice);
        let settings = settings_of_drafter(drafter, &mut dice);
        assert_eq!(drafter_of(&settings), Some(drafter));
    }
}
