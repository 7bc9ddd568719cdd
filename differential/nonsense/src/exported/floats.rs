//! `float`: Rust's f64 made total.
use crate::drawn::floats::{float, near};
use crate::exported::{compare, Answer};
use crate::function::{plain, Function};
use crate::readings::floats as defined;
use crate::turn::one_nan;

const ONE: u64 = 0x3ff0_0000_0000_0000;

unsafe extern "C" {
    safe fn float_max(a: f64, b: f64) -> f64;
    safe fn float_clamp(x: f64, low: f64, high: f64) -> f64;
    safe fn float_clamp_unit(x: f64) -> f64;
    safe fn float_is_finite(x: f64) -> bool;
    safe fn float_is_clear(x: f64) -> bool;
    safe fn float_in_range(x: f64, low: f64, high: f64) -> bool;
    safe fn float_in_range_or_infinite(x: f64, low: f64, high: f64) -> bool;
    safe fn float_in_signed_range(x: f64, low: f64, high: f64) -> bool;
    safe fn float_bits(x: f64) -> u64;
    safe fn float_of_bits(b: u64) -> f64;
}

/// A function of up to three floats, the first of them and the ends of a range; by their bits.
fn of_floats<A: Answer>(
    name: &'static str,
    call: fn([f64; 3]) -> A,
    define: fn([u64; 3]) -> A,
) -> Box<dyn Function> {
    plain(name, &[], move |turn| {
        let x = float(turn);
        let [low, high] = [0; 2].map(|_| near(x, turn));
        turn.tell("floats", [x, low, high]);
        let bits = [x, low, high];
        compare(turn, call(bits.map(f64::from_bits)), define(bits));
    })
}

pub fn functions() -> Vec<Box<dyn Function>> {
    let of_bits = plain("float_of_bits", &[], |turn| {
        let bits = float(turn);
        turn.tell("bits", bits);
        compare(turn, one_nan(float_of_bits(bits)), defined::one_nan(bits));
    });
    let mut functions = vec![of_bits];
    functions.extend(of_one());
    functions.extend(of_ranges());
    functions
}

fn of_one() -> Vec<Box<dyn Function>> {
    vec![
        of_floats(
            "float_clamp_unit",
            |[x, ..]| one_nan(float_clamp_unit(x)),
            |[x, ..]| defined::one_nan(defined::clamp(x, 0, ONE)),
        ),
        of_floats(
            "float_is_finite",
            |[x, ..]| float_is_finite(x),
            |[x, ..]| defined::is_finite(x),
        ),
        of_floats(
            "float_is_clear",
            |[x, ..]| float_is_clear(x),
            |[x, ..]| defined::is_clear(x),
        ),
        of_floats(
            "float_bits",
            |[x, ..]| float_bits(x),
            |[x, ..]| defined::one_nan(x),
        ),
    ]
}

fn of_ranges() -> Vec<Box<dyn Function>> {
    vec![
        of_floats(
            "float_max",
            |[a, b, _]| one_nan(float_max(a, b)),
            |[a, b, _]| defined::one_nan(defined::max(a, b)),
        ),
        of_floats(
            "float_clamp",
            |[x, low, high]| one_nan(float_clamp(x, low, high)),
            |[x, low, high]| defined::one_nan(defined::clamp(x, low, high)),
        ),
        of_floats(
            "float_in_range",
            |[x, low, high]| float_in_range(x, low, high),
            |[x, low, high]| defined::in_range(x, low, high),
        ),
        of_floats(
            "float_in_range_or_infinite",
            |[x, low, high]| float_in_range_or_infinite(x, low, high),
            |[x, low, high]| defined::in_range_or_infinite(x, low, high),
        ),
        of_floats(
            "float_in_signed_range",
            |[x, low, high]| float_in_signed_range(x, low, high),
            |[x, low, high]| defined::in_signed_range(x, low, high),
        ),
    ]
}
