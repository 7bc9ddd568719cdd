//! `switching` and `switching_lent`: one worker's switching record.
use crate::drawn::floats::float;
use crate::exported::widths::{drawn_switch, drawn_width, steps};
use crate::exported::{compare, exported_twice, Answer, Refusal};
use crate::function::{plain, Function};
use crate::lent::Lent;
use crate::turn::{is_same, Mixture, Turn};
use oracle::costs::switches;
use oracle::costs::switching::{decided, first, Record};

/// What a decision or a collection answers, and the record that is kept.
#[repr(C)]
#[derive(Clone, Copy, Debug)]
struct Switched {
    refusal: u64,
    answer: u64,
    width: u32,
    rounds: u32,
    stall: f64,
}

/// Records of one stall, any NaN the same.
impl PartialEq for Switched {
    fn eq(&self, other: &Switched) -> bool {
        let words = |s: &Switched| (s.refusal, s.answer, s.width, s.rounds);
        words(self) == words(other) && is_same(self.stall.to_bits(), other.stall.to_bits())
    }
}

impl Answer for Switched {
    fn refusal(&self) -> u64 {
        self.refusal
    }
}

impl Switched {
    fn of(refusal: u8, answer: u64, kept: Record) -> Switched {
        Switched {
            refusal: refusal.into(),
            answer,
            width: kept.width,
            rounds: kept.rounds,
            stall: f64::from_bits(kept.stall),
        }
    }

    /// A refusal keeps the record.
    fn decided(after: Result<Record, u8>, before: Record) -> Switched {
        match after {
            Ok(after) => Switched::of(0, after.width.into(), after),
            Err(number) => Switched::of(number, 0, before),
        }
    }

    fn collected(record: Record) -> Switched {
        match record.refusal() {
            0 => Switched::of(0, record.stall, Record { stall: 0, ..record }),
            number => Switched::of(number, 0, record),
        }
    }
}

unsafe extern "C" {
    safe fn switching_record_refusal(width: u32, rounds: u32, stall: f64) -> Refusal;
    safe fn switching_first(target: u32) -> Switched;
    safe fn switching_collect(width: u32, rounds: u32, stall: f64) -> Switched;
    safe fn switching_lent_lend_and_collect(width: u32, rounds: u32, stall: f64) -> Switched;
}

// Of the curve the address of a lent buffer and its length.
exported_twice!(Decide: switching_decide, switching_lent_lend_and_decide(
    width: u32,
    rounds: u32,
    stall: f64,
    curve: *const f64,
    len: usize,
    target: u32,
    cooldown_rounds: u32,
    steps: u32,
    max_step: u32,
    cost_ms: f64
) -> Switched);

pub fn functions() -> Vec<Box<dyn Function>> {
    let mut functions = of_records();
    functions.push(decision("switching_decide", switching_decide));
    functions.push(decision(
        "switching_lent_lend_and_decide",
        switching_lent_lend_and_decide,
    ));
    functions
}

fn drawn_record(turn: &mut Turn) -> Record {
    let record = switches::record(&mut turn.dice);
    match turn.mixture {
        Mixture::Random if turn.dice.once_in(4) => Record {
            width: turn.dice.bits() as u32,
            rounds: turn.dice.bits() as u32,
            stall: turn.dice.bits(),
        },
        Mixture::Special => Record {
            stall: float(turn),
            ..record
        },
        Mixture::Good => Record {
            width: record.width.min(64),
            rounds: record.rounds.min(u32::MAX - 1),
            stall: 0.25f64.to_bits(),
        },
        _ => record,
    }
}

fn of_record<A: Answer>(
    name: &'static str,
    call: fn(u32, u32, f64) -> A,
    define: fn(Record) -> A,
) -> Box<dyn Function> {
    plain(name, &[15], move |turn| {
        let record = drawn_record(turn);
        turn.tell("record", record);
        let answered = call(record.width, record.rounds, f64::from_bits(record.stall));
        compare(turn, answered, define(record));
    })
}

fn of_records() -> Vec<Box<dyn Function>> {
    vec![
        of_record(
            "switching_record_refusal",
            |width, rounds, stall| switching_record_refusal(width, rounds, stall),
            |record| Refusal(record.refusal().into()),
        ),
        of_record(
            "switching_collect",
            |width, rounds, stall| switching_collect(width, rounds, stall),
            Switched::collected,
        ),
        of_record(
            "switching_lent_lend_and_collect",
            |width, rounds, stall| switching_lent_lend_and_collect(width, rounds, stall),
            Switched::collected,
        ),
        plain("switching_first", &[11], |turn| {
            let target = drawn_width(turn);
            turn.tell("target", target);
            let none = Record {
                width: 0,
                rounds: 0,
                stall: 0,
            };
            let defined = Switched::decided(first(target), none);
            compare(turn, switching_first(target), defined);
        }),
    ]
}

/// A curve of prices and holes, or of any floats; at times too long.
fn drawn_curve(turn: &mut Turn) -> Vec<u64> {
    let mut curve = switches::curve(&mut turn.dice);
    if turn.mixture == Mixture::Random && turn.dice.once_in(2) {
        curve.fill_with(|| turn.dice.bits());
    }
    curve
}

fn decision(name: &'static str, decide: Decide) -> Box<dyn Function> {
    let mut lent = Lent::new();
    plain(name, &[11, 12, 15], move |turn| {
        let (record, curve, target) = (drawn_record(turn), drawn_curve(turn), drawn_width(turn));
        let switch = drawn_switch(turn);
        let (steps, max_step) = steps(switch, turn);
        turn.tell("asked", (record, target, switch));
        turn.lend("curve", &mut lent, &curve);
        let [stall, cost_ms] = [record.stall, switch.cost_ms].map(f64::from_bits);
        let (width, rounds, cooldown) = (record.width, record.rounds, switch.cooldown_rounds);
        let (at, len) = (lent.floats(), lent.len());
        // SAFETY: the address is that of a lent buffer with so many elements.
        let answered = unsafe {
            decide(
                width, rounds, stall, at, len, target, cooldown, steps, max_step, cost_ms,
            )
        };
        let after = decided(record, &curve, target, switch);
        compare(turn, answered, Switched::decided(after, record));
        turn.left("curve", &lent, &curve);
    })
}
