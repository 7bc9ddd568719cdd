//! Texts of cost tables: rows of fields, faults in them, and lines made of them.
use numbers::dice::Dice;
use numbers::field_texts::{field_of, whole_or_damaged, without_end};
use numbers::spellings::{edge, noise};
use numbers::{decimal_texts, whole_texts};

pub const HEADER: [&str; 3] = ["batch_size", "num_draft_tokens", "step_seconds"];

/// What may stand around a field.
const BLANKS: &[&str] = &["", "", "", " ", "\t", "  ", "\x0b", "\x0c", " \t\r", "\r"];

/// Lines without a field.
const BLANK_LINES: &[&str] = &["", " ", "\t", " \x0b\x0c ", "\r", "\r\r"];

/// Blanks of other scripts, which the Rust trims too, and what is blank to neither.
const OTHER_BLANKS: &[&str] = &[
    "\u{a0}", "\u{85}", "\u{3000}", "\u{2028}", "\x1c", "\x1f", "\0",
];

/// Fields of a header that is wrong.
const WRONG_NAMES: &[&str] = &[
    "batch",
    "Batch_size",
    "batch_size2",
    "",
    "batch size",
    "\u{feff}batch_size",
    "step_seconds",
];

type Field = Vec<u8>;

/// A header and rows, as fields.
pub struct Text {
    lines: Vec<Vec<Field>>,
    /// Whether blanks stand around fields and between lines.
    blanks: bool,
}

/// How the rows of a table lie.
#[derive(Clone, Copy, PartialEq, Eq)]
pub enum Shape {
    /// Few depths and few batches: equal ones, holes, and rows that are dropped.
    Grid,
    /// Every depth from 0 on, with as many batches.
    Full,
    /// Depths and batches of any size.
    Scattered,
    /// One depth, seconds about 1.3 times the next.
    Falling,
}

pub const SHAPES: [Shape; 4] = [Shape::Grid, Shape::Full, Shape::Scattered, Shape::Falling];

impl Text {
    /// One without a fault.
    pub fn new(shape: Shape, rows: usize, dice: &mut Dice) -> Text {
        let wide = rows.div_ceil(dice.between(1, 8)).max(1);
        let mut numbers: Vec<(u64, u64)> =
            (0..rows).map(|at| place(shape, at, wide, dice)).collect();
        match dice.below(4) {
            0 => numbers.sort(),
            1 => numbers.sort_by(|first, second| second.cmp(first)),
            2 => numbers.sort_by_key(|&(batch, _)| batch),
            _ => {}
        }
        let mut seconds = Seconds::new(shape, dice);
        let plain = rows > 40 || dice.once_in(2);
        let mut lines = vec![HEADER.map(Field::from).to_vec()];
        for (batch, drafts) in numbers {
            let fields = [
                whole(batch, plain, dice),
                whole(drafts, plain, dice),
                seconds.next(plain, dice),
            ];
            lines.push(fields.to_vec());
        }
        let blanks = rows <= 40 && dice.once_in(3);
        Text { lines, blanks }
    }

    /// Any shape; up to so many rows, mostly few.
    pub fn random(most: usize, dice: &mut Dice) -> Text {
        let rows = match dice.below(64) {
            0 => dice.between(0, most.min(200)),
            1 => dice.between(0, 40),
            2 => 0,
            3..=12 => 1,
            _ => dice.between(2, 9),
        };
        Text::new(dice.pick(&SHAPES), rows, dice)
    }

    /// How many rows it has.
    pub fn rows(&self) -> usize {
        self.lines.len().saturating_sub(1)
    }

    /// One field or one line that is not as it was.
    pub fn spoil(&mut self, dice: &mut Dice) {
        let first = usize::from(self.lines.len() > 1 && !dice.once_in(6));
        let line = dice.between(first, self.lines.len() - 1);
        let field = dice.between(0, self.lines[line].len().max(1) - 1);
        match dice.below(18) {
            0 => self.put(0, field, dice.pick(WRONG_NAMES).into()),
            1 if !self.lines[line].is_empty() => drop(self.lines[line].remove(field)),
            2 => self.lines[line].push(field_of(noise, dice)),
            3 => self.lines.insert(line, vec![dice.pick(BLANK_LINES).into()]),
            4 | 5 => self.lines.insert(line, self.lines[line].clone()),
            6 => self.lines.truncate(line.max(1)),
            7 => self.put(line, field, "\u{e9}".into()),
            8 => self.put(line, 2, dice.pick(&["0", "-0", "-1", "0.0", "-.5"]).into()),
            9 => self.put(line, 1, dice.pick(&["0", "00", "+0"]).into()),
            10 => self.put(line, field, field_of(edge, dice)),
            11 => self.put(line, 0, field_of(whole_texts::random, dice)),
            12 => self.put(line, 1, field_of(whole_texts::random, dice)),
            13 => self.surround(line, field, dice.pick(OTHER_BLANKS)),
            14 => self
                .lines
                .insert(line, vec![dice.pick(OTHER_BLANKS).into()]),
            _ => self.put(line, 2, field_of(decimal_texts::random, dice)),
        }
    }

    fn put(&mut self, line: usize, field: usize, text: Field) {
        if let Some(place) = self.lines[line].get_mut(field) {
            *place = text;
        }
    }

    /// Blanks around a field.
    fn surround(&mut self, line: usize, field: usize, blank: &str) {
        if let Some(place) = self.lines[line].get_mut(field) {
            *place = [blank.as_bytes(), place, blank.as_bytes()].concat();
        }
    }

    /// Its lines, each ended by LF or by CR and LF; the last at times by neither, or by a lone CR.
    pub fn bytes(&self, dice: &mut Dice) -> Vec<u8> {
        let ends: &[&str] = dice.pick(&[&["\n"], &["\r\n"], &["\n", "\r\n"]]);
        let mut text = Vec::new();
        for line in &self.lines {
            if self.blanks && !text.is_empty() && dice.once_in(4) {
                text.extend(dice.pick(BLANK_LINES).bytes());
                text.extend(dice.pick(ends).bytes());
            }
            let fields = line.iter().map(|field| self.around(field, dice));
            text.extend(fields.collect::<Vec<_>>().join(&b','));
            text.extend(dice.pick(ends).bytes());
        }
        match dice.below(12) {
            0..=2 => without_end(&mut text),
            3 => text.push(b'\r'),
            4 => text.push(b'\n'),
            _ => {}
        }
        text
    }

    /// A field, at times with blanks around it.
    fn around(&self, field: &[u8], dice: &mut Dice) -> Field {
        if !self.blanks {
            return field.to_vec();
        }
        let [before, after] = [0; 2].map(|_| dice.pick(BLANKS).as_bytes());
        [before, field, after].concat()
    }
}

/// Batch and num_draft_tokens of a row.
fn place(shape: Shape, at: usize, wide: usize, dice: &mut Dice) -> (u64, u64) {
    match shape {
        Shape::Grid => (
            dice.pick(&[0, 1, 2, 4, 4, 7, 8]),
            dice.pick(&[1, 1, 2, 4, 5, 64, 65]),
        ),
        Shape::Full => ((at % wide) as u64 * 2, (at / wide) as u64 + 1),
        Shape::Scattered => (any(dice), any(dice).max(1)),
        Shape::Falling => (dice.below(wide as u64 + 3), 1),
    }
}

/// Any u32, the ends among them, mostly a small one.
fn any(dice: &mut Dice) -> u64 {
    match dice.below(8) {
        0 => dice.pick(&[0, 4_294_967_295, 4_294_967_294, 2_147_483_648]),
        1 | 2 => dice.bits() >> (32 + dice.below(32)),
        3 => dice.between(60, 70) as u64,
        _ => dice.below(12),
    }
}

/// A whole number, plain or with a sign and zeros.
fn whole(number: u64, plain: bool, dice: &mut Dice) -> Field {
    let prefix = if plain {
        ""
    } else {
        dice.pick(&["", "", "", "+", "0", "+000"])
    };
    format!("{prefix}{number}").into()
}

/// Seconds that rise and fall about 1.3 times.
struct Seconds {
    shape: Shape,
    last: u64,
}

impl Seconds {
    fn new(shape: Shape, dice: &mut Dice) -> Seconds {
        let last = dice.between(100, 20_000) as u64;
        Seconds { shape, last }
    }

    /// A decimal above zero, in ten thousandths.
    fn next(&mut self, plain: bool, dice: &mut Dice) -> Field {
        let anything = self.shape == Shape::Scattered && dice.once_in(3);
        if anything || !plain && dice.once_in(6) {
            return above_zero(dice);
        }
        let last = self.last;
        // once 1.3 times the last one and its neighbours, in steps that a decimal spells
        self.last = match dice.below(8) {
            0 | 1 => last * 13 / 10,
            2 => last * 13 / 10 + 1,
            3 => last * 10 / 13,
            4 => last * 10 / 13 + 1,
            5 => last,
            6 => last + dice.below(last / 4 + 2),
            _ => dice.between(100, 20_000) as u64,
        };
        self.last = match self.last {
            10..=10_000_000 => self.last,
            _ => dice.between(100, 20_000) as u64,
        };
        format!("{}.{:04}", self.last / 10_000, self.last % 10_000).into()
    }
}

/// A decimal that is read, above zero.
fn above_zero(dice: &mut Dice) -> Field {
    loop {
        let text = field_of(decimal_texts::random_read, dice);
        let is_above =
            numbers::reading::decimal(&text).is_ok_and(|bits| bits > 0 && bits >> 63 == 0);
        if is_above {
            return text;
        }
    }
}

/// A text and how many rows of room it needs: without a fault, with one or two, or damaged in a
/// byte; at times no text at all.
pub fn random(mut text: Text, dice: &mut Dice) -> (Vec<u8>, usize) {
    let rows = text.rows();
    for _ in 0..dice.pick(&[0, 0, 0, 0, 1, 1, 2]) {
        text.spoil(dice);
    }
    let bytes = whole_or_damaged(|dice| text.bytes(dice), dice);
    (bytes, rows)
}

/// The slots of the three columns: mostly what is needed or a little more, at times less in one.
pub fn room(rows: usize, dice: &mut Dice) -> [usize; 3] {
    match dice.below(16) {
        0..=7 => [rows; 3],
        8..=12 => [0; 3].map(|_| rows + dice.between(0, 3)),
        13 => [0; 3].map(|_| dice.between(0, rows)),
        _ => {
            let mut room = [rows; 3];
            let column = dice.between(0, 2);
            room[column] = rows.saturating_sub(1);
            room
        }
    }
}
