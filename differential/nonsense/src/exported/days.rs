//! `day_line`, `day_names`, `day_shapes`, `day_fields`: what a day file's line asks for.
use crate::drawn::day_lines::{any_name, line, shape};
use crate::drawn::texts::place;
use crate::exported::{of_text, Answer, Told};
use crate::function::{plain, Function};
use crate::lent::Lent;
use crate::readings::day_lines as defined;
use crate::readings::day_lines::{field_of, named, uncommented};
use crate::readings::shapes::{judged, line_judged, Wrong};
use crate::turn::Turn;
use numbers::dice::Dice;
use numbers::lines::fields;
use numbers::reading;

// Of each text the address of a lent buffer and its length.
unsafe extern "C" {
    fn day_line_uncommented(line: *const u8, len: usize, at: usize) -> Told;
    fn day_line_field(line: *const u8, len: usize, place: usize, at: usize) -> Told;
    fn day_line_field_count(line: *const u8, len: usize) -> usize;
    fn day_names_command_of(line: *const u8, len: usize) -> u64;
    fn day_names_policy_of(name: *const u8, len: usize) -> u64;
    fn day_names_acceptance_of(name: *const u8, len: usize) -> u64;
    fn day_names_drafter_of(name: *const u8, len: usize) -> u64;
    fn day_names_prices_of(name: *const u8, len: usize) -> u64;
    fn day_names_is_none(name: *const u8, len: usize) -> bool;
    fn day_shapes_shape_judged(line: *const u8, len: usize, shape: *const u8, n: usize) -> Told;
    fn day_fields_line_judged(line: *const u8, len: usize) -> Told;
    fn day_fields_whole_in(line: *const u8, len: usize, place: usize) -> Told;
    fn day_fields_decimal_in(line: *const u8, len: usize, place: usize) -> Told;
}

pub fn functions() -> Vec<Box<dyn Function>> {
    let mut functions = of_lines();
    functions.extend(of_names());
    functions.extend(of_fields());
    functions.push(shape_judged());
    functions
}

/// A function of one text and nothing else.
fn alone<A: Answer>(
    name: &'static str,
    refuses: &'static [u64],
    draw: fn(&mut Turn) -> Vec<u8>,
    call: unsafe extern "C" fn(*const u8, usize) -> A,
    define: fn(&[u8]) -> A,
) -> Box<dyn Function> {
    of_text(name, refuses, draw, move |_, lent, text| {
        let answered = unsafe { call(lent.at(), lent.len()) };
        (answered, define(text))
    })
}

/// A field that a line has, one past them, or any.
fn field_place(text: &[u8], dice: &mut Dice) -> usize {
    place(fields(uncommented(text)).len(), dice)
}

fn of_lines() -> Vec<Box<dyn Function>> {
    vec![
        alone(
            "day_line_field_count",
            &[],
            line,
            day_line_field_count,
            |line| fields(uncommented(line)).len(),
        ),
        of_text("day_line_uncommented", &[], line, |turn, lent, text| {
            let at = place(text.len(), &mut turn.dice);
            turn.tell("place", at);
            let answered = unsafe { day_line_uncommented(lent.at(), lent.len(), at) };
            (answered, Told::part(uncommented(text), at))
        }),
        of_text("day_line_field", &[], line, |turn, lent, text| {
            let field = field_place(text, &mut turn.dice);
            let at = place(4, &mut turn.dice);
            turn.tell("field and place", (field, at));
            let answered = unsafe { day_line_field(lent.at(), lent.len(), field, at) };
            (answered, Told::part(field_of(text, field), at))
        }),
    ]
}

fn of_names() -> Vec<Box<dyn Function>> {
    vec![
        alone(
            "day_names_command_of",
            &[],
            line,
            day_names_command_of,
            defined::command,
        ),
        alone(
            "day_names_policy_of",
            &[],
            any_name,
            day_names_policy_of,
            |name| named(&defined::POLICIES, name),
        ),
        alone(
            "day_names_acceptance_of",
            &[],
            any_name,
            day_names_acceptance_of,
            |name| named(&defined::ACCEPTANCES, name),
        ),
        alone(
            "day_names_drafter_of",
            &[],
            any_name,
            day_names_drafter_of,
            |name| named(&defined::DRAFTERS, name),
        ),
        alone(
            "day_names_prices_of",
            &[],
            any_name,
            day_names_prices_of,
            |name| named(&defined::PRICES, name),
        ),
        alone(
            "day_names_is_none",
            &[],
            any_name,
            day_names_is_none,
            |name| name == b"none",
        ),
    ]
}

/// What was expected, and the field.
fn told(judged: Result<(), Wrong>) -> Told {
    judged.err().map_or(Told::default(), |wrong| Told {
        refusal: wrong.expected,
        first: 0,
        second: wrong.field,
    })
}

fn of_fields() -> Vec<Box<dyn Function>> {
    vec![
        alone(
            "day_fields_line_judged",
            &[1, 2, 3, 5, 6, 7, 8],
            line,
            day_fields_line_judged,
            |line| told(line_judged(line)),
        ),
        of_text("day_fields_whole_in", &[5], line, |turn, lent, text| {
            let field = field_place(text, &mut turn.dice);
            turn.tell("field", field);
            let answered = unsafe { day_fields_whole_in(lent.at(), lent.len(), field) };
            (answered, Told::one(reading::whole(field_of(text, field))))
        }),
        of_text(
            "day_fields_decimal_in",
            &[6, 7],
            line,
            |turn, lent, text| {
                let field = field_place(text, &mut turn.dice);
                turn.tell("field", field);
                let answered = unsafe { day_fields_decimal_in(lent.at(), lent.len(), field) };
                (answered, Told::one(reading::decimal(field_of(text, field))))
            },
        ),
    ]
}

fn shape_judged() -> Box<dyn Function> {
    let mut lent = [Lent::new(), Lent::new()];
    let refuses = &[1, 2, 3, 5, 6, 7];
    plain("day_shapes_shape_judged", refuses, move |turn| {
        let (line, shape) = (line(turn), shape(turn));
        turn.lend("line", &mut lent[0], &line);
        turn.lend("shape", &mut lent[1], &shape);
        let [a, b] = &lent;
        let answered = unsafe { day_shapes_shape_judged(a.at(), a.len(), b.at(), b.len()) };
        crate::exported::compare(turn, answered, told(judged(&line, &shape)));
        turn.left("line", a, &line);
        turn.left("shape", b, &shape);
    })
}
