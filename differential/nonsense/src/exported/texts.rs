//! `blocks`, `text`, `trimming` and `reader`: bytes, lines and fields of a lent text.
use crate::drawn::texts::{any, byte, place, spoiled};
use crate::exported::{compare, of_text, Answer, Told};
use crate::function::{plain, Function};
use crate::lent::Lent;
use crate::readings::texts as defined;
use crate::turn::Turn;
use numbers::lines::{fields, trimmed};

// Of each text the address of a lent buffer and its length.
unsafe extern "C" {
    fn blocks_near_find(s: *const u8, len: usize, byte: u8) -> usize;
    fn blocks_count(s: *const u8, len: usize, byte: u8) -> usize;
    fn blocks_find(s: *const u8, len: usize, byte: u8) -> usize;
    fn blocks_is_ascii(s: *const u8, len: usize) -> bool;
    fn text_first_line(s: *const u8, len: usize) -> Told;
    fn text_field_count(s: *const u8, len: usize) -> usize;
    fn text_field(s: *const u8, len: usize, place: usize, at: usize) -> Told;
    fn text_same(a: *const u8, len: usize, b: *const u8, len_b: usize) -> bool;
    fn text_starts_with(s: *const u8, len: usize, byte: u8) -> bool;
    fn trimming_trim(s: *const u8, len: usize, at: usize) -> Told;
    fn reader_line_at(text: *const u8, len: usize, at: usize, part: u64) -> Told;
    fn reader_field_at(text: *const u8, len: usize, at: usize, stop: usize, part: u64) -> Told;
    fn reader_second_line(text: *const u8, len: usize, part: u64) -> Told;
}

pub fn functions() -> Vec<Box<dyn Function>> {
    let mut functions = of_blocks();
    functions.extend(of_texts());
    functions.extend(of_readers());
    functions
}

/// A function of a text and a byte.
fn of_byte<A: Answer>(
    name: &'static str,
    call: unsafe extern "C" fn(*const u8, usize, u8) -> A,
    define: fn(&[u8], u8) -> A,
) -> Box<dyn Function> {
    of_text(name, &[], any, move |turn, lent, text| {
        let byte = byte(text, &mut turn.dice);
        turn.tell("byte", byte);
        let answered = unsafe { call(lent.at(), lent.len(), byte) };
        (answered, define(text, byte))
    })
}

fn of_blocks() -> Vec<Box<dyn Function>> {
    vec![
        of_byte("blocks_near_find", blocks_near_find, defined::find),
        of_byte("blocks_count", blocks_count, defined::count),
        of_byte("blocks_find", blocks_find, defined::find),
        of_byte("text_starts_with", text_starts_with, |text, byte| {
            text.first() == Some(&byte)
        }),
        of_text("blocks_is_ascii", &[], any, |_, lent, text| {
            let answered = unsafe { blocks_is_ascii(lent.at(), lent.len()) };
            (answered, text.iter().all(|&byte| byte < 128))
        }),
    ]
}

fn of_texts() -> Vec<Box<dyn Function>> {
    vec![
        of_text("text_first_line", &[], any, |_, lent, text| {
            let answered = unsafe { text_first_line(lent.at(), lent.len()) };
            let (stop, next) = defined::first_line(text);
            (answered, Told::of(stop as u64, next as u64))
        }),
        of_text("text_field_count", &[], any, |_, lent, text| {
            let answered = unsafe { text_field_count(lent.at(), lent.len()) };
            (answered, fields(text).len())
        }),
        of_text("text_field", &[], any, |turn, lent, text| {
            let at = place(8, &mut turn.dice);
            let field = place(defined::count(text, b','), &mut turn.dice);
            turn.tell("field and place", (field, at));
            let answered = unsafe { text_field(lent.at(), lent.len(), field, at) };
            (answered, Told::part(defined::field(text, field), at))
        }),
        of_text("trimming_trim", &[], any, |turn, lent, text| {
            let at = place(text.len(), &mut turn.dice);
            turn.tell("place", at);
            let answered = unsafe { trimming_trim(lent.at(), lent.len(), at) };
            (answered, Told::part(trimmed(text), at))
        }),
        same(),
    ]
}

/// Two texts, the second often the first, its front, or the first with a byte that is not as it was.
fn same() -> Box<dyn Function> {
    let mut lent = [Lent::new(), Lent::new()];
    plain("text_same", &[], move |turn| {
        let first = any(turn);
        let second = other(&first, turn);
        turn.lend("first", &mut lent[0], &first);
        turn.lend("second", &mut lent[1], &second);
        let [a, b] = &lent;
        let answered = unsafe { text_same(a.at(), a.len(), b.at(), b.len()) };
        compare(turn, answered, first == second);
        turn.left("first", a, &first);
        turn.left("second", b, &second);
    })
}

fn other(first: &[u8], turn: &mut Turn) -> Vec<u8> {
    match turn.dice.below(4) {
        0 => any(turn),
        1 => first[..turn.dice.between(0, first.len())].to_vec(),
        2 => spoiled(first.to_vec(), &mut turn.dice),
        _ => first.to_vec(),
    }
}

/// Of a span whether something is found, and the number of it that is asked for.
fn told(span: defined::Span, part: u64) -> Told {
    Told::of(span.found.into(), span.part(part))
}

fn of_readers() -> Vec<Box<dyn Function>> {
    vec![
        of_text("reader_line_at", &[], any, |turn, lent, text| {
            let at = place(text.len(), &mut turn.dice);
            let part = turn.dice.below(4);
            turn.tell("place and part", (at, part));
            let answered = unsafe { reader_line_at(lent.at(), lent.len(), at, part) };
            (answered, told(defined::line_at(text, at), part))
        }),
        of_text("reader_field_at", &[], any, |turn, lent, text| {
            let [at, stop] = [0; 2].map(|_| place(text.len(), &mut turn.dice));
            let part = turn.dice.below(4);
            turn.tell("place, stop and part", (at, stop, part));
            let answered = unsafe { reader_field_at(lent.at(), lent.len(), at, stop, part) };
            (answered, told(defined::field_at(text, at, stop), part))
        }),
        of_text("reader_second_line", &[], any, |turn, lent, text| {
            let part = turn.dice.below(4);
            turn.tell("part", part);
            let answered = unsafe { reader_second_line(lent.at(), lent.len(), part) };
            (answered, told(defined::second_line(text), part))
        }),
    ]
}
