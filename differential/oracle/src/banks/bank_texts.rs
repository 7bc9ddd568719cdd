//! Texts of banks: a table of fields, faults in it, and lines made of it.
use crate::banks::lent::{Room, LARGEST};
use numbers::dice::Dice;
use numbers::field_texts::{field_of, whole_or_damaged, without_end};
use numbers::spellings::noise;
use numbers::{decimal_texts, whole_texts};

/// Names of columns that count for the depth, and names that do not.
const SIGNAL_NAMES: &[&str] = &["a", "a0", "a1", "a63", "alpha", "accepted", "a b", "aa"];
const OTHER_NAMES: &[&str] = &[
    "category", "", "b", "A0", " a0", "commits", "x a", "0a", "-a", "\ta",
];

/// What the first column may be called where the header is wrong.
const WRONG_NAMES: &[&str] = &[
    "commit",
    "Commits",
    " commits",
    "commits ",
    "",
    "a0",
    "\u{feff}commits",
];

/// What stands in a field that is not read.
const UNREAD: &[&str] = &[
    "x", "", "1", "code", "-", "1e5", "nan", "a0", "\"", "x\ry", " ",
];

/// Fields above which all decimals are short ones.
const SOME_FIELDS: usize = 60;

type Field = Vec<u8>;

/// A header and rows, as fields.
pub struct Table {
    lines: Vec<Vec<Field>>,
    depth: usize,
}

impl Table {
    /// One without a fault: `commits`, so many other columns, and as many as the depth.
    pub fn new(others: usize, depth: usize, rounds: usize, dice: &mut Dice) -> Table {
        let columns = 1 + others + depth;
        let short = columns * rounds > SOME_FIELDS || dice.once_in(2);
        let mut lines = vec![header(others, depth, dice)];
        for _ in 0..rounds {
            lines.push(row(others, depth, short, dice));
        }
        Table { lines, depth }
    }

    /// Any shape, mostly a small one, at times at or past a limit.
    pub fn random(dice: &mut Dice) -> Table {
        let (others, depth) = match dice.below(48) {
            0 => (dice.between(0, 63), dice.between(60, 66)),
            1 => (dice.between(60, 126), dice.between(1, 64)),
            2 => (dice.between(120, 140), dice.between(1, 9)),
            3..=6 => (dice.between(0, 20), dice.between(1, 64)),
            _ => (dice.between(0, 3), dice.between(1, 6)),
        };
        let rounds = match dice.below(128) {
            0 => dice.between(1, 200),
            1..=8 => dice.between(1, 30),
            9..=12 => 0,
            _ => dice.between(1, 6),
        };
        Table::new(others, depth, rounds, dice)
    }

    /// One of a small shape.
    pub fn small(dice: &mut Dice) -> Table {
        let (others, depth) = (dice.between(0, 2), dice.between(1, 3));
        Table::new(others, depth, dice.between(1, 3), dice)
    }

    /// Just the room that it takes.
    pub fn room(&self) -> Room {
        Room::exactly(self.lines.len().saturating_sub(1), self.depth).capped()
    }

    /// One field or one line that is not as it was.
    pub fn spoil(&mut self, dice: &mut Dice) {
        let line = dice.between(0, self.lines.len() - 1);
        let field = dice.between(0, self.lines[line].len() - 1);
        match dice.below(16) {
            0 => self.lines[0][0] = dice.pick(WRONG_NAMES).into(),
            1 => self.rename_signals(),
            2 if field > 0 => drop(self.lines[line].remove(field)),
            3 => self.lines[line].insert(field, field_of(noise, dice)),
            4 => self.lines.insert(line, vec![Field::new()]),
            5 => self.lines.insert(line, self.lines[line].clone()),
            6 => self.lines.truncate(line.max(1)),
            7 => self.lines[line][field] = "\u{e9}".into(),
            8 => self.lines[line][field] = field_of(decimal_texts::random, dice),
            9 | 10 => self.spell_commits(line, dice),
            _ => self.spell_a_signal(line, dice),
        }
    }

    /// No column counts for the depth any more.
    fn rename_signals(&mut self) {
        for name in self.lines[0].iter_mut().skip(1) {
            name.insert(0, b'_');
        }
    }

    /// Any text for a row's commits.
    fn spell_commits(&mut self, line: usize, dice: &mut Dice) {
        if line > 0 {
            self.lines[line][0] = field_of(whole_texts::random, dice);
        }
    }

    /// Any text for one of a row's signals.
    fn spell_a_signal(&mut self, line: usize, dice: &mut Dice) {
        let back = dice.between(1, self.depth);
        let fields = &mut self.lines[line];
        if line > 0 && back < fields.len() {
            let field = fields.len() - back;
            fields[field] = field_of(decimal_texts::random, dice);
        }
    }

    /// Its lines, each ended by LF or by CR and LF; the last at times by neither, or by a lone CR.
    pub fn text(&self, dice: &mut Dice) -> Vec<u8> {
        let ends: &[&str] = dice.pick(&[&["\n"], &["\r\n"], &["\n", "\r\n"]]);
        let mut text = Vec::new();
        for line in &self.lines {
            text.extend(line.join(&b','));
            text.extend_from_slice(dice.pick(ends).as_bytes());
        }
        match dice.below(16) {
            0..=3 => without_end(&mut text),
            4 => text.push(b'\r'),
            5 => text.push(b'\n'),
            _ => {}
        }
        text
    }
}

/// The names of the columns: the signals' ones last, or anywhere behind `commits`.
fn header(others: usize, depth: usize, dice: &mut Dice) -> Vec<Field> {
    let usual = dice.once_in(2);
    let other = |dice: &mut Dice| {
        if usual {
            "category"
        } else {
            dice.pick(OTHER_NAMES)
        }
    };
    let mut names: Vec<Field> = (0..others).map(|_| other(dice).into()).collect();
    for place in 0..depth {
        let name = match usual {
            true => format!("a{place}"),
            false => dice.pick(SIGNAL_NAMES).to_string(),
        };
        let at = if usual {
            names.len()
        } else {
            dice.between(0, names.len())
        };
        names.insert(at, name.into());
    }
    names.insert(0, b"commits".to_vec());
    names
}

/// A row that is read: commits, fields that are not looked at, and decimals.
fn row(others: usize, depth: usize, short: bool, dice: &mut Dice) -> Vec<Field> {
    let mut fields = vec![commits(short, dice)];
    for _ in 0..others {
        fields.push(dice.pick(UNREAD).into());
    }
    for _ in 0..depth {
        fields.push(decimal(short, dice));
    }
    fields
}

/// Any u32, mostly a small one.
fn commits(short: bool, dice: &mut Dice) -> Field {
    let number = match dice.below(8) {
        0 => dice.bits() as u32,
        1 => dice.between(60, 66) as u32,
        _ => dice.below(9) as u32,
    };
    let prefix = if short {
        ""
    } else {
        dice.pick(&["", "", "+", "0", "+000"])
    };
    format!("{prefix}{number}").into()
}

fn decimal(short: bool, dice: &mut Dice) -> Field {
    if !short && dice.once_in(2) {
        return field_of(decimal_texts::random_read, dice);
    }
    let digits = dice.below(1000);
    let spelled = match dice.below(4) {
        0 => format!(".{digits}"),
        1 => format!("{}", dice.below(2)),
        2 => format!("-{digits}"),
        _ => format!("0.{digits:03}"),
    };
    spelled.into()
}

/// A text and the room that is lent for it: without a fault, with one or two, or damaged in a byte;
/// at times no text at all.
pub fn random(table: impl Fn(&mut Dice) -> Table, dice: &mut Dice) -> (Vec<u8>, Room) {
    let mut table = table(dice);
    let exactly = table.room();
    for _ in 0..dice.pick(&[0, 0, 0, 1, 1, 2]) {
        table.spoil(dice);
    }
    let text = whole_or_damaged(|dice| table.text(dice), dice);
    if text.is_empty() {
        return (text, exactly);
    }
    (text, room(exactly, dice))
}

/// Mostly what is needed or more, at times one slot less in a buffer.
pub fn room(exactly: Room, dice: &mut Dice) -> Room {
    match dice.below(16) {
        0..=5 => exactly,
        6 => LARGEST,
        7..=11 => more(exactly, dice),
        12 => one_less(exactly, dice),
        13 => one_less(more(exactly, dice), dice),
        14 => Room::exactly(dice.between(0, 4), dice.between(0, 4)),
        _ => less(exactly, dice),
    }
}

fn more(room: Room, dice: &mut Dice) -> Room {
    let more = Room {
        commits: room.commits + dice.between(0, 3),
        signals: room.signals + dice.between(0, 9),
        curve: room.curve + dice.between(0, 3),
    };
    more.capped()
}

/// One slot less in one buffer.
pub fn one_less(mut room: Room, dice: &mut Dice) -> Room {
    let buffer = match dice.below(3) {
        0 => &mut room.commits,
        1 => &mut room.signals,
        _ => &mut room.curve,
    };
    *buffer = buffer.saturating_sub(1);
    room
}

/// Any number of slots less in any buffer.
fn less(room: Room, dice: &mut Dice) -> Room {
    Room {
        commits: dice.between(0, room.commits),
        signals: dice.between(0, room.signals),
        curve: dice.between(0, room.curve),
    }
}
