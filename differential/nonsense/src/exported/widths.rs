//! `switch_settings` and `width_walk`: the settings of switching, and the walk.
use crate::exported::{compare, Answer, Refusal};
use crate::function::{plain, Function};
use crate::lent::Lent;
use crate::readings::walks::walked;
use crate::turn::{Mixture, Turn};
use oracle::costs::switches;
use oracle::costs::switching::Switch;

// Of a list the address of a lent buffer and its length.
unsafe extern "C" {
    safe fn switch_settings_is_unconstrained(
        cooldown_rounds: u32,
        steps: u32,
        max_step: u32,
        cost_ms: f64,
    ) -> bool;
    safe fn switch_settings_switch_refusal(
        cooldown_rounds: u32,
        steps: u32,
        max_step: u32,
        cost_ms: f64,
    ) -> Refusal;
    fn width_walk_walk_candidates(
        candidates: *const u32,
        len: usize,
        width: u32,
        target: u32,
        steps: u32,
        max_step: u32,
    ) -> u32;
}

pub fn functions() -> Vec<Box<dyn Function>> {
    let mut functions = of_settings();
    functions.push(walk());
    functions
}

pub fn drawn_switch(turn: &mut Turn) -> Switch {
    let dice = &mut turn.dice;
    let switch = switches::switch(dice);
    match turn.mixture {
        Mixture::Random => Switch {
            cooldown_rounds: dice.bits() as u32,
            max_step: dice.once_in(2).then(|| dice.bits() as u32),
            cost_ms: dice.bits(),
        },
        Mixture::Special => Switch {
            cooldown_rounds: dice.pick(&[0, 1, 2, u32::MAX]),
            max_step: dice.pick(switches::STEPS),
            cost_ms: dice.pick(switches::COSTS),
        },
        _ => switch,
    }
}

/// The largest step as it crosses: 1 and the step, or 0 and anything.
pub fn steps(switch: Switch, turn: &mut Turn) -> (u32, u32) {
    match switch.max_step {
        Some(step) => (1, step),
        None => (0, turn.dice.bits() as u32),
    }
}

pub fn drawn_width(turn: &mut Turn) -> u32 {
    match turn.mixture {
        Mixture::Random if turn.dice.once_in(2) => turn.dice.bits() as u32,
        _ => switches::width(&mut turn.dice),
    }
}

fn of_setting<A: Answer>(
    name: &'static str,
    refuses: &'static [u64],
    call: fn(u32, u32, u32, f64) -> A,
    define: fn(Switch) -> A,
) -> Box<dyn Function> {
    plain(name, refuses, move |turn| {
        let switch = drawn_switch(turn);
        let (steps, max_step) = steps(switch, turn);
        turn.tell("switch", switch);
        let cost_ms = f64::from_bits(switch.cost_ms);
        let answered = call(switch.cooldown_rounds, steps, max_step, cost_ms);
        compare(turn, answered, define(switch));
    })
}

fn of_settings() -> Vec<Box<dyn Function>> {
    vec![
        of_setting(
            "switch_settings_is_unconstrained",
            &[],
            |cooldown, steps, most, cost| {
                switch_settings_is_unconstrained(cooldown, steps, most, cost)
            },
            Switch::is_unconstrained,
        ),
        of_setting(
            "switch_settings_switch_refusal",
            &[12],
            |cooldown, steps, most, cost| {
                switch_settings_switch_refusal(cooldown, steps, most, cost)
            },
            |switch| Refusal(switch.refusal().into()),
        ),
    ]
}

/// Candidates: ascending, at times of any order.
fn drawn_candidates(turn: &mut Turn) -> Vec<u32> {
    let dice = &mut turn.dice;
    let most = dice.pick(&[3, 12, 64]);
    let chance = dice.between(1, 4) as u64;
    let mut candidates: Vec<u32> = (0..=most).filter(|_| dice.once_in(chance)).collect();
    let count = candidates.len();
    match turn.mixture {
        Mixture::Random => candidates.fill_with(|| dice.bits() as u32),
        Mixture::Special => candidates.fill_with(|| dice.pick(&[0, 1, 5, 64, 65, u32::MAX])),
        Mixture::Damaged if count > 0 => {
            candidates[dice.between(0, count - 1)] = dice.below(70) as u32;
        }
        _ => {}
    }
    candidates
}

fn walk() -> Box<dyn Function> {
    let mut lent = Lent::new();
    plain("width_walk_walk_candidates", &[], move |turn| {
        let candidates = drawn_candidates(turn);
        let pick = |turn: &mut Turn| match candidates.is_empty() || turn.dice.once_in(2) {
            true => drawn_width(turn),
            false => turn.dice.pick(&candidates),
        };
        let [width, target] = [0; 2].map(|_| pick(turn));
        let switch = drawn_switch(turn);
        let (steps, max_step) = steps(switch, turn);
        turn.tell("width, target, step", (width, target, switch.max_step));
        turn.lend("candidates", &mut lent, &candidates);
        let (at, len) = (lent.at(), lent.len());
        // SAFETY: the address is that of a lent buffer with so many elements.
        let answered =
            unsafe { width_walk_walk_candidates(at, len, width, target, steps, max_step) };
        let defined = walked(&candidates, width, target, switch.max_step);
        compare(turn, answered, defined);
        turn.left("candidates", &lent, &candidates);
    })
}
