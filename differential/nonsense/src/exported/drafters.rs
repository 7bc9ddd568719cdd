//! `speculative`: what producing the drafts costs.
use crate::drawn::drafters::{drafter, gamma, loaded, mostly_good, rates, sequences, Crossing};
use crate::drawn::floats::up_to;
use crate::exported::{compare, Answer, Refusal, Told};
use crate::function::{plain, Function};
use crate::lent::Lent;
use crate::turn::{Mixture, Turn};
use oracle::drafter::{Drafter, Lent as Beside, Rates};
use oracle::drafter_values::float_up_to;

/// The drafter before what else a call is asked with.
macro_rules! exported {
    ($($name:ident($($parameter:ident: $type:ty),*) -> $answer:ty;)*) => {
        unsafe extern "C" {
            $(fn $name(
                kind: u32,
                p: f64,
                q: f64,
                x: u32,
                y: u32,
                z: u32,
                $($parameter: $type),*
            ) -> $answer;)*
        }
    };
}

exported! {
    speculative_is_block() -> bool;
    speculative_drafter_refusal() -> Refusal;
    speculative_seconds(
        gamma: u32, batch: u32, peak: f64, bw: f64, kv_delta: f64, verify_c: f64,
        loaded: *const f64, len: usize
    ) -> Told;
    speculative_pass_seconds(
        batch: u32, peak: f64, bw: f64, kv_delta: f64, loaded: *const f64, len: usize
    ) -> Told;
    speculative_ragged_seconds(
        widths: *const u32, widths_len: usize, peak: f64, bw: f64, kv_delta: f64, verify_c: f64,
        loaded: *const f64, len: usize
    ) -> Told;
}

unsafe extern "C" {
    safe fn speculative_no_drafter() -> Told;
    safe fn speculative_rates_refusal(peak: f64, bw: f64, kv_delta: f64) -> Refusal;
}

pub fn functions() -> Vec<Box<dyn Function>> {
    vec![
        alone(
            "speculative_is_block",
            &[],
            |c| unsafe { speculative_is_block(c.kind, c.p, c.q, c.x, c.y, c.z) },
            Drafter::is_block,
        ),
        alone(
            "speculative_drafter_refusal",
            &[12],
            |c| unsafe { speculative_drafter_refusal(c.kind, c.p, c.q, c.x, c.y, c.z) },
            |drafter| Refusal(drafter.refusal().into()),
        ),
        rates_refusal(),
        plain("speculative_no_drafter", &[], |turn| {
            compare(turn, speculative_no_drafter(), Told::of(0, 0));
        }),
        priced("speculative_seconds", seconds),
        priced("speculative_pass_seconds", pass_seconds),
        ragged_seconds(),
    ]
}

/// A function of a drafter and nothing else.
fn alone<A: Answer>(
    name: &'static str,
    refuses: &'static [u64],
    call: fn(Crossing) -> A,
    define: fn(Drafter) -> A,
) -> Box<dyn Function> {
    plain(name, refuses, move |turn| {
        let drafter = drafter(turn);
        let crossing = Crossing::of(drafter, &mut turn.dice);
        turn.tell("drafter", drafter);
        compare(turn, call(crossing), define(drafter));
    })
}

fn rates_refusal() -> Box<dyn Function> {
    plain("speculative_rates_refusal", &[15], |turn| {
        let mut rates = rates(turn);
        if turn.dice.once_in(2) {
            rates.kv_delta = up_to(9, turn) ^ turn.dice.below(2) << 63;
        }
        turn.tell("rates", rates);
        let [peak, bw, kv_delta] = [rates.peak, rates.bw, rates.kv_delta].map(f64::from_bits);
        let answered = speculative_rates_refusal(peak, bw, kv_delta);
        compare(turn, answered, Refusal(rates.refusal().into()));
    })
}

/// What a cost is asked with, floats by their bits.
#[derive(Debug)]
struct Question {
    drafter: Drafter,
    rates: Rates,
    verify_c: u64,
    gamma: u32,
    batch: u32,
}

impl Question {
    fn drawn(batch: u32, turn: &mut Turn) -> Question {
        let verify_c = match turn.dice.once_in(3) {
            true => up_to(9, turn),
            false => float_up_to(9, &mut turn.dice),
        };
        Question {
            drafter: mostly_good(turn),
            rates: rates(turn),
            verify_c,
            gamma: gamma(turn),
            batch,
        }
    }

    /// Peak, bw, kv_delta and the verify cost.
    fn floats(&self) -> [f64; 4] {
        let Rates { peak, bw, kv_delta } = self.rates;
        [peak, bw, kv_delta, self.verify_c].map(f64::from_bits)
    }

    fn beside<'a>(&self, loaded: &'a [u64]) -> Beside<'a> {
        let verify_c = self.verify_c;
        Beside { verify_c, loaded }
    }
}

/// What is answered over the loaded experts that are lent, and what is defined.
type Priced = fn(&Question, Crossing, &Lent<u64>, &[u64]) -> (Told, Told);

/// A cost over a batch.
fn priced(name: &'static str, call: Priced) -> Box<dyn Function> {
    let mut lent = Lent::new();
    plain(name, &[11, 12, 15, 16], move |turn| {
        let batch = sequences(turn);
        let question = Question::drawn(batch, turn);
        let loaded = loaded(batch as usize, turn);
        let crossing = Crossing::of(question.drafter, &mut turn.dice);
        turn.tell("asked", &question);
        turn.lend("loaded", &mut lent, &loaded);
        let (answered, defined) = call(&question, crossing, &lent, &loaded);
        compare(turn, answered, defined);
        turn.left("loaded", &lent, &loaded);
    })
}

fn seconds(q: &Question, c: Crossing, lent: &Lent<u64>, loaded: &[u64]) -> (Told, Told) {
    let [peak, bw, kv_delta, verify_c] = q.floats();
    let (gamma, batch, at, len) = (q.gamma, q.batch, lent.floats(), lent.len());
    // SAFETY: the address is that of a lent buffer with so many elements.
    let answered = unsafe {
        speculative_seconds(
            c.kind, c.p, c.q, c.x, c.y, c.z, gamma, batch, peak, bw, kv_delta, verify_c, at, len,
        )
    };
    let beside = q.beside(loaded);
    let defined = q.drafter.seconds(gamma, batch, q.rates, beside);
    (answered, Told::one(defined))
}

fn pass_seconds(q: &Question, c: Crossing, lent: &Lent<u64>, loaded: &[u64]) -> (Told, Told) {
    let [peak, bw, kv_delta, _] = q.floats();
    let (batch, at, len) = (q.batch, lent.floats(), lent.len());
    // SAFETY: as above.
    let answered = unsafe {
        speculative_pass_seconds(
            c.kind, c.p, c.q, c.x, c.y, c.z, batch, peak, bw, kv_delta, at, len,
        )
    };
    let beside = Beside {
        verify_c: 0,
        loaded,
    };
    (
        answered,
        Told::one(q.drafter.pass_seconds(batch, q.rates, beside)),
    )
}

/// Widths of so many sequences: mostly up to 64.
fn drawn_widths(n: usize, turn: &mut Turn) -> Vec<u32> {
    let most = turn.dice.pick(&[0, 1, 3, 8, 64]);
    let mut widths: Vec<u32> = (0..n).map(|_| turn.dice.between(0, most) as u32).collect();
    let wrong = match turn.mixture {
        Mixture::Random => turn.dice.bits() as u32,
        _ => turn.dice.pick(&[64, 65, u32::MAX]),
    };
    if n > 0 && turn.mixture != Mixture::Good && turn.dice.once_in(4) {
        widths[turn.dice.between(0, n - 1)] = wrong;
    }
    widths
}

fn ragged_seconds() -> Box<dyn Function> {
    let (mut lent_widths, mut lent_loaded) = (Lent::new(), Lent::new());
    plain(
        "speculative_ragged_seconds",
        &[11, 12, 15, 16],
        move |turn| {
            let n = sequences(turn).min(1030) as usize;
            let question = Question::drawn(0, turn);
            let (widths, loaded) = (drawn_widths(n, turn), loaded(n, turn));
            let c = Crossing::of(question.drafter, &mut turn.dice);
            turn.tell("asked", &question);
            turn.lend("widths", &mut lent_widths, &widths);
            turn.lend("loaded", &mut lent_loaded, &loaded);
            let [peak, bw, kv_delta, verify_c] = question.floats();
            let (at, n) = (lent_widths.at(), lent_widths.len());
            let (experts, len) = (lent_loaded.floats(), lent_loaded.len());
            // SAFETY: each address is that of a lent buffer with so many elements.
            let answered = unsafe {
                speculative_ragged_seconds(
                    c.kind, c.p, c.q, c.x, c.y, c.z, at, n, peak, bw, kv_delta, verify_c, experts,
                    len,
                )
            };
            let beside = question.beside(&loaded);
            let defined = question
                .drafter
                .ragged_seconds(&widths, question.rates, beside);
            compare(turn, answered, Told::one(defined));
            turn.left("widths", &lent_widths, &widths);
            turn.left("loaded", &lent_loaded, &loaded);
        },
    )
}
