//! `day_paths` and `day_lists`: what a day file's line writes into a lent buffer.
use crate::drawn::day_lines::line;
use crate::drawn::texts::{any, place};
use crate::exported::{compare, Told};
use crate::function::{plain, Function};
use crate::lent::Lent;
use crate::readings::day_lines::{decimals, path, uncommented, wholes, Listed};
use crate::turn::{Mixture, Turn};
use numbers::dice::Dice;
use numbers::lines::fields;

// Of each buffer the address of a lent one and how many elements it has.
unsafe extern "C" {
    fn day_paths_beside(
        day: *const u8,
        day_len: usize,
        name: *const u8,
        name_len: usize,
        out: *mut u8,
        room: usize,
    ) -> usize;
    fn day_lists_read_decimals(
        line: *const u8,
        len: usize,
        from: usize,
        out: *mut f64,
        room: usize,
    ) -> Told;
    fn day_lists_read_wholes(
        line: *const u8,
        len: usize,
        from: usize,
        out: *mut u32,
        room: usize,
    ) -> Told;
}

pub fn functions() -> Vec<Box<dyn Function>> {
    vec![beside(), read_decimals(), read_wholes()]
}

/// Room for so many: just enough, one more or less, none, or any.
fn room(enough: usize, dice: &mut Dice) -> usize {
    match dice.below(8) {
        0 => 0,
        1 => enough.saturating_sub(1),
        2 => dice.between(0, 2 * enough),
        3 => enough + 1,
        _ => enough,
    }
}

/// A path: bytes at random, or names between slashes.
fn drawn_path(turn: &mut Turn) -> Vec<u8> {
    match turn.mixture {
        Mixture::Random => any(turn),
        _ => {
            let count = turn.dice.between(0, 24);
            let bytes = (0..count).map(|_| turn.dice.pick(b"//ab.c\0\xff-_"));
            bytes.collect()
        }
    }
}

fn beside() -> Box<dyn Function> {
    let mut lent = [Lent::new(), Lent::new()];
    let mut out = Lent::new();
    plain("day_paths_beside", &[], move |turn| {
        let [day, name] = [0; 2].map(|_| drawn_path(turn));
        let path = path(&day, &name);
        let mut left = vec![turn.dice.bits() as u8; room(path.len(), &mut turn.dice)];
        turn.lend("day", &mut lent[0], &day);
        turn.lend("name", &mut lent[1], &name);
        turn.lend("out", &mut out, &left);
        let [a, b] = &lent;
        let answered =
            unsafe { day_paths_beside(a.at(), a.len(), b.at(), b.len(), out.at_mut(), out.len()) };
        let fits = path.len() <= left.len();
        turn.shape = Some(if fits { "fits" } else { "too long" });
        if fits {
            left[..path.len()].copy_from_slice(&path);
        }
        compare(turn, answered, if fits { path.len() } else { 0 });
        turn.left("day", a, &day);
        turn.left("name", b, &name);
        turn.left("out", &out, &left);
    })
}

/// A line, the field that a list starts at, and the room for it.
fn drawn_list(turn: &mut Turn) -> (Vec<u8>, usize, usize) {
    let line = line(turn);
    let count = fields(uncommented(&line)).len();
    let from = match turn.dice.below(4) {
        0 => place(count, &mut turn.dice),
        _ => turn.dice.between(1, 5).min(count),
    };
    let room = room(count.saturating_sub(from), &mut turn.dice);
    turn.tell("from", from);
    (line, from, room)
}

/// What a list comes to, how many values are written, and what was met.
fn told(listed: &Listed) -> (Told, &[u64], &'static str) {
    match listed {
        Listed::Values(values) => (Told::of(values.len() as u64, 0), values, "lists"),
        Listed::TooMany => (Told::of(0, 1), &[], "too many"),
        Listed::Wrong { field, expected } => {
            let refused = Told {
                refusal: *expected,
                first: 0,
                second: *field,
            };
            (refused, &[], "no list")
        }
    }
}

fn read_decimals() -> Box<dyn Function> {
    let (mut text, mut out) = (Lent::new(), Lent::new());
    plain("day_lists_read_decimals", &[6, 7], move |turn| {
        let (line, from, room) = drawn_list(turn);
        let mut left: Vec<u64> = (0..room).map(|_| turn.dice.bits()).collect();
        turn.lend("line", &mut text, &line);
        turn.lend("out", &mut out, &left);
        let answered = unsafe {
            day_lists_read_decimals(text.at(), text.len(), from, out.floats_mut(), out.len())
        };
        let listed = decimals(&line, from, room);
        let (defined, values, shape) = told(&listed);
        left[..values.len()].copy_from_slice(values);
        turn.shape = Some(shape);
        compare(turn, answered, defined);
        turn.left("line", &text, &line);
        turn.left("out", &out, &left);
    })
}

fn read_wholes() -> Box<dyn Function> {
    let (mut text, mut out) = (Lent::new(), Lent::new());
    plain("day_lists_read_wholes", &[5], move |turn| {
        let (line, from, room) = drawn_list(turn);
        let mut left: Vec<u32> = (0..room).map(|_| turn.dice.bits() as u32).collect();
        turn.lend("line", &mut text, &line);
        turn.lend("out", &mut out, &left);
        let answered =
            unsafe { day_lists_read_wholes(text.at(), text.len(), from, out.at_mut(), out.len()) };
        let listed = wholes(&line, from, room);
        let (defined, values, shape) = told(&listed);
        for (slot, &value) in left.iter_mut().zip(values) {
            *slot = value as u32;
        }
        turn.shape = Some(shape);
        compare(turn, answered, defined);
        turn.left("line", &text, &line);
        turn.left("out", &out, &left);
    })
}
