//! Cost tables in text.
use super::declared::*;
use super::texts::{bits, mutated, nonsense, read_of, wholes};
use crate::function::{plain, Function};
use crate::lent::Lent;
use crate::turn::{Mixture, Turn};
use numbers::dice::Dice;
use oracle::costs::table::{self, Row, Table};
use oracle::costs::table_texts::{self, Text};

/// What texts of tables are made of.
const TABLE_PARTS: &[&str] = &[
    "batch_size",
    "num_draft_tokens",
    "step_seconds",
    ",",
    ",",
    ",",
    "\n",
    "\n",
    "\r\n",
    "0",
    "1",
    "2",
    "4294967295",
    "0.5",
    "-1",
    ".",
    "\t",
    " ",
    "inf",
    "\r",
    "\u{e9}",
    "",
];

/// One good text in so many is as long as the rules take, or longer.
const LONG: u64 = 400;

pub fn functions() -> Vec<Box<dyn Function>> {
    vec![table_read()]
}

fn table_text(mixture: Mixture, dice: &mut Dice) -> (Vec<u8>, [usize; 3]) {
    let header = "batch_size,num_draft_tokens,step_seconds\n";
    match mixture {
        Mixture::Random | Mixture::Special => {
            let text = nonsense(mixture, header, TABLE_PARTS, dice);
            (text, [0; 3].map(|_| dice.between(0, 9)))
        }
        Mixture::Good if dice.once_in(LONG) => {
            let rows = dice.pick(&[4_096, 4_097]);
            let text = [header.as_bytes(), &b"1,1,1\n".repeat(rows)].concat();
            (text, [rows; 3])
        }
        Mixture::Good => {
            let text = Text::random(dice.pick(&[3, 10, 40]), dice);
            let rows = text.rows();
            (text.bytes(dice), [rows; 3])
        }
        Mixture::Damaged => {
            let text = Text::random(dice.pick(&[3, 10, 40]), dice);
            let (text, rows) = table_texts::random(text, dice);
            let text = if dice.once_in(2) {
                mutated(text, dice)
            } else {
                text
            };
            (text, table_texts::room(rows, dice))
        }
    }
}

/// The buffers of a call.
#[derive(Default)]
struct Buffers {
    text: Lent<u8>,
    depths: Lent<u32>,
    batches: Lent<u32>,
    seconds: Lent<u64>,
}

impl Buffers {
    fn read(&mut self) -> Read {
        // SAFETY: the buffers are lent whole and apart.
        unsafe {
            latchmeander_table_read(
                self.text.at(),
                self.text.len(),
                self.depths.at_mut(),
                self.depths.len(),
                self.batches.at_mut(),
                self.batches.len(),
                self.seconds.floats_mut(),
                self.seconds.len(),
            )
        }
    }
}

fn table_read() -> Box<dyn Function> {
    let mut lent = Buffers::default();
    let refuses = &[1, 2, 3, 4, 5, 6, 7, 8, 9, 10, 11, 16];
    plain(
        "latchmeander_table_read",
        refuses,
        move |turn: &mut Turn| {
            let (text, room) = table_text(turn.mixture, &mut turn.dice);
            let mut depths = wholes(room[0], &mut turn.dice);
            let mut batches = wholes(room[1], &mut turn.dice);
            let mut seconds = bits(room[2], &mut turn.dice);
            turn.lend("text", &mut lent.text, &text);
            turn.lend("depths", &mut lent.depths, &depths);
            turn.lend("batches", &mut lent.batches, &batches);
            turn.lend("seconds", &mut lent.seconds, &seconds);
            let answer = lent.read();
            let least = room.into_iter().min().unwrap_or(0);
            let defined = table::read(&text, least);
            for (at, row) in defined.iter().flat_map(left).enumerate() {
                (depths[at], batches[at], seconds[at]) = (row.depth, row.batch, row.seconds);
            }
            let defined = defined.as_ref().map(|table| (table.kept.len() as u32, 0));
            let defined = read_of(defined.map_err(|no| (no.number, no.row)));
            turn.answer(answer, defined);
            turn.refusal = defined.refusal;
            turn.left("text", &lent.text, &text);
            turn.left("depths", &lent.depths, &depths);
            turn.left("batches", &lent.batches, &batches);
            turn.left("seconds", &lent.seconds, &seconds);
        },
    )
}

/// What stands in the columns: the kept rows over all rows in order.
fn left(table: &Table) -> impl Iterator<Item = &Row> {
    table.kept.iter().chain(&table.ordered[table.kept.len()..])
}
