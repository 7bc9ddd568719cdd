//! `acceptance`: how the target accepts a draft.
use crate::drawn::models::model;
use crate::drawn::texts::place;
use crate::exported::{compare, Answer, Refusal, Told};
use crate::function::{plain, Function};
use crate::lent::Lent;
use crate::readings::floats;
use crate::turn::one_nan;
use oracle::model::Model;

// Of each list the address of a lent buffer and its length.
unsafe extern "C" {
    fn acceptance_a_d(model: u32, alpha: f64, positions: *const f64, len: usize, d: usize) -> f64;
    fn acceptance_model_refusal(
        model: u32,
        alpha: f64,
        positions: *const f64,
        len: usize,
    ) -> Refusal;
    fn acceptance_expected_accepted(
        model: u32,
        alpha: f64,
        positions: *const f64,
        len: usize,
        gamma: u32,
    ) -> Told;
    fn acceptance_sample_accepted(
        model: u32,
        alpha: f64,
        positions: *const f64,
        len: usize,
        gamma: u32,
        draws: *const f64,
        draws_len: usize,
    ) -> Told;
}

/// A model as it crosses, the position that is asked for, and the draws.
struct Crossing<'a> {
    kind: u32,
    alpha: f64,
    positions: &'a Lent<u64>,
    draws: &'a Lent<u64>,
    gamma: u32,
    d: usize,
}

fn of_model<A: Answer>(
    name: &'static str,
    refuses: &'static [u64],
    call: fn(Crossing) -> A,
    define: fn(Model, usize) -> A,
) -> Box<dyn Function> {
    let mut lent = [Lent::new(), Lent::new()];
    plain(name, refuses, move |turn| {
        let model = model(turn);
        let d = place(model.positions.len(), &mut turn.dice);
        turn.lend("positions", &mut lent[0], &model.positions);
        turn.lend("draws", &mut lent[1], &model.draws);
        turn.tell("model", (model.kind, model.alpha, model.gamma, d));
        let answered = call(Crossing {
            kind: model.kind as u32,
            alpha: f64::from_bits(model.alpha),
            positions: &lent[0],
            draws: &lent[1],
            gamma: model.gamma,
            d,
        });
        turn.left("positions", &lent[0], &model.positions);
        turn.left("draws", &lent[1], &model.draws);
        compare(turn, answered, define(model, d));
    })
}

pub fn functions() -> Vec<Box<dyn Function>> {
    let mut functions = of_values();
    functions.extend(of_drafts());
    functions
}

fn of_values() -> Vec<Box<dyn Function>> {
    vec![
        of_model(
            "acceptance_a_d",
            &[],
            |c| {
                let at = c.positions;
                let value = unsafe { acceptance_a_d(c.kind, c.alpha, at.floats(), at.len(), c.d) };
                one_nan(value)
            },
            |model, d| floats::one_nan(model.value(d)),
        ),
        of_model(
            "acceptance_model_refusal",
            &[12],
            |c| {
                let at = c.positions;
                unsafe { acceptance_model_refusal(c.kind, c.alpha, at.floats(), at.len()) }
            },
            |model, _| Refusal::of(Model { gamma: 0, ..model }.expected()),
        ),
    ]
}

fn of_drafts() -> Vec<Box<dyn Function>> {
    vec![
        of_model(
            "acceptance_expected_accepted",
            &[11, 12],
            |c| {
                let at = c.positions;
                let (at, len) = (at.floats(), at.len());
                unsafe { acceptance_expected_accepted(c.kind, c.alpha, at, len, c.gamma) }
            },
            |model, _| Told::one(model.expected()),
        ),
        of_model(
            "acceptance_sample_accepted",
            &[11, 12, 13, 14],
            |c| {
                let [at, draws] = [c.positions, c.draws];
                let (at, len, draws, used) = (at.floats(), at.len(), draws.floats(), draws.len());
                unsafe {
                    acceptance_sample_accepted(c.kind, c.alpha, at, len, c.gamma, draws, used)
                }
            },
            |model, _| {
                let sample = model.sample();
                sample.map_or_else(Told::refused, |sample| {
                    Told::of(sample.commits.into(), sample.used as u64)
                })
            },
        ),
    ]
}
