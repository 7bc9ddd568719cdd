//! The entry points that the libraries `exported_*` hand across the C boundary.
pub mod batches;
pub mod day_clock;
pub mod day_lists;
pub mod days;
pub mod depths;
pub mod drafters;
pub mod expected;
pub mod floats;
pub mod gates;
pub mod lookups;
pub mod models;
pub mod numerals;
pub mod plans;
pub mod storages;
pub mod switching;
pub mod texts;
pub mod widths;

use crate::function::{plain, Function};
use crate::lent::Lent;
use crate::turn::Turn;
use std::fmt::Debug;

pub fn functions() -> Vec<Box<dyn Function>> {
    let groups = [
        numerals::functions(),
        floats::functions(),
        texts::functions(),
        days::functions(),
        day_lists::functions(),
        day_clock::functions(),
        lookups::functions(),
        models::functions(),
        drafters::functions(),
        widths::functions(),
        switching::functions(),
        expected::functions(),
        batches::functions(),
        depths::functions(),
        gates::functions(),
        storages::functions(),
        plans::functions(),
    ];
    groups.into_iter().flatten().collect()
}

/// Two functions of the same parameters, and the type of both.
macro_rules! exported_twice {
    ($call:ident: $first:ident, $second:ident($($name:ident: $type:ty),*) -> $answer:ty) => {
        type $call = unsafe extern "C" fn($($type),*) -> $answer;

        unsafe extern "C" {
            fn $first($($name: $type),*) -> $answer;
            fn $second($($name: $type),*) -> $answer;
        }
    };
}
use exported_twice;

/// What most of them answer: the refusal's number, 0 for none, and two numbers.
#[repr(C)]
#[derive(Clone, Copy, Debug, Default, PartialEq, Eq)]
pub struct Told {
    pub refusal: u64,
    pub first: u64,
    pub second: u64,
}

impl Told {
    pub fn of(first: u64, second: u64) -> Told {
        Told {
            refusal: 0,
            first,
            second,
        }
    }

    /// One number, or the refusal's.
    pub fn one(read: Result<u64, u8>) -> Told {
        match read {
            Ok(first) => Told::of(first, 0),
            Err(number) => Told::refused(number),
        }
    }

    pub fn refused(number: u8) -> Told {
        Told {
            refusal: number.into(),
            ..Told::default()
        }
    }

    /// A part of a text: its length, and its byte at a place, 0 past its end.
    pub fn part(part: &[u8], at: usize) -> Told {
        let byte = part.get(at).copied().unwrap_or(0);
        Told::of(part.len() as u64, byte.into())
    }
}

/// A refusal's number alone, 0 for none.
#[repr(transparent)]
#[derive(Clone, Copy, Debug, PartialEq, Eq)]
pub struct Refusal(pub u64);

impl Refusal {
    pub fn of<T>(read: Result<T, u8>) -> Refusal {
        Refusal(read.err().unwrap_or(0).into())
    }
}

/// What is answered, of which the refusal is counted, and the shape that is met.
pub trait Answer: PartialEq + Debug + 'static {
    fn refusal(&self) -> u64 {
        0
    }

    fn shape(&self) -> Option<&'static str> {
        None
    }
}

impl Answer for Told {
    fn refusal(&self) -> u64 {
        self.refusal
    }
}

impl Answer for Refusal {
    fn refusal(&self) -> u64 {
        self.0
    }
}

impl Answer for bool {
    fn shape(&self) -> Option<&'static str> {
        Some(if *self { "yes" } else { "no" })
    }
}

impl Answer for u32 {}
impl Answer for u64 {}
impl Answer for usize {}

/// Compares what is answered with the definition's, and counts its refusal.
pub fn compare<A: Answer>(turn: &mut Turn, answered: A, defined: A) {
    turn.refusal = defined.refusal();
    turn.shape = turn.shape.or(defined.shape());
    turn.answer(answered, defined);
}

/// A function that is lent one text: what it answers, and what the definition does.
pub fn of_text<A: Answer>(
    name: &'static str,
    refuses: &'static [u64],
    draw: fn(&mut Turn) -> Vec<u8>,
    call: impl Fn(&mut Turn, &Lent<u8>, &[u8]) -> (A, A) + 'static,
) -> Box<dyn Function> {
    let mut lent = Lent::new();
    plain(name, refuses, move |turn| {
        let text = draw(turn);
        turn.lend("text", &mut lent, &text);
        let (answered, defined) = call(turn, &lent, &text);
        compare(turn, answered, defined);
        turn.left("text", &lent, &text);
    })
}
