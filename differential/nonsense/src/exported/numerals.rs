//! `numeral`: numbers in text, and whole seconds.
use crate::drawn::floats::float;
use crate::drawn::texts::{decimal, whole};
use crate::exported::{compare, of_text, Refusal, Told};
use crate::function::{plain, Function};
use numbers::reading;
use numbers::second::second;

// Of a text the address of a lent buffer and its length.
unsafe extern "C" {
    fn numeral_whole(text: *const u8, len: usize) -> Told;
    fn numeral_decimal(text: *const u8, len: usize) -> Told;
    fn numeral_decimal_refusal(text: *const u8, len: usize) -> Refusal;
    safe fn numeral_second(end: f64) -> u64;
    safe fn numeral_whole_part(x: f64) -> u64;
}

pub fn functions() -> Vec<Box<dyn Function>> {
    vec![
        of_text("numeral_whole", &[5], whole, |_, lent, text| {
            let told = unsafe { numeral_whole(lent.at(), lent.len()) };
            (told, Told::one(reading::whole(text)))
        }),
        of_text("numeral_decimal", &[6, 7], decimal, |_, lent, text| {
            let told = unsafe { numeral_decimal(lent.at(), lent.len()) };
            (told, Told::one(reading::decimal(text)))
        }),
        of_text(
            "numeral_decimal_refusal",
            &[6, 7],
            decimal,
            |_, lent, text| {
                let told = unsafe { numeral_decimal_refusal(lent.at(), lent.len()) };
                (told, Refusal::of(reading::decimal(text)))
            },
        ),
        of_moment("numeral_second", |end| numeral_second(end)),
        of_moment("numeral_whole_part", |x| numeral_whole_part(x)),
    ]
}

/// The whole part of a float, which is also the second of a moment.
fn of_moment(name: &'static str, call: fn(f64) -> u64) -> Box<dyn Function> {
    plain(name, &[], move |turn| {
        let bits = float(turn);
        turn.tell("float", bits);
        compare(turn, call(f64::from_bits(bits)), second(bits));
    })
}
