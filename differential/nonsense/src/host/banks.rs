//! Banks in text.
use super::declared::*;
use super::texts::{bits, mutated, nonsense, read_of, wholes};
use crate::function::{plain, Function};
use crate::lent::Lent;
use crate::turn::{Mixture, Turn};
use numbers::dice::Dice;
use oracle::banks::bank::{self, Bank};
use oracle::banks::bank_texts::{self, Table};
use oracle::banks::lent::Room;

/// What texts of banks are made of.
const BANK_PARTS: &[&str] = &[
    "commits",
    "a",
    "a0",
    ",",
    ",",
    ",",
    "\n",
    "\n",
    "\r\n",
    "0",
    "1",
    "17",
    "4294967296",
    "0.5",
    "-0",
    ".",
    "1e5",
    "nan",
    " ",
    "\r",
    "\u{e9}",
    "1234567890123456",
    "",
];

/// One good text in so many is as long as the rules take, or longer.
const LONG: u64 = 4_000;

pub fn functions() -> Vec<Box<dyn Function>> {
    vec![bank_read()]
}

fn bank_text(mixture: Mixture, dice: &mut Dice) -> (Vec<u8>, Room) {
    match mixture {
        Mixture::Random | Mixture::Special => {
            let header = dice.pick(&["commits,a0\n", "commits,b,a,a\r\n", "commits,a"]);
            let text = nonsense(mixture, header, BANK_PARTS, dice);
            (text, Room::exactly(dice.between(0, 9), dice.between(0, 3)))
        }
        Mixture::Good if dice.once_in(LONG) => {
            let rounds = dice.pick(&[65_536, 65_537]);
            let text = [&b"commits,a\n"[..], &b"1,1\n".repeat(rounds)].concat();
            (text, Room::exactly(rounds, 1))
        }
        Mixture::Good => {
            let table = Table::random(dice);
            (table.text(dice), table.room())
        }
        Mixture::Damaged => {
            let (text, room) = bank_texts::random(Table::random, dice);
            let text = if dice.once_in(2) {
                mutated(text, dice)
            } else {
                text
            };
            (text, room)
        }
    }
}

/// The buffers of a call.
#[derive(Default)]
struct Buffers {
    text: Lent<u8>,
    commits: Lent<u32>,
    signals: Lent<u64>,
    curve: Lent<u64>,
}

impl Buffers {
    fn read(&mut self) -> Read {
        // SAFETY: the buffers are lent whole and apart.
        unsafe {
            latchmeander_bank_read(
                self.text.at(),
                self.text.len(),
                self.commits.at_mut(),
                self.commits.len(),
                self.signals.floats_mut(),
                self.signals.len(),
                self.curve.floats_mut(),
                self.curve.len(),
            )
        }
    }
}

fn bank_read() -> Box<dyn Function> {
    let mut lent = Buffers::default();
    let refuses = &[1, 2, 3, 4, 5, 6, 7, 10, 11, 16];
    plain("latchmeander_bank_read", refuses, move |turn: &mut Turn| {
        let (text, room) = bank_text(turn.mixture, &mut turn.dice);
        let mut commits = wholes(room.commits, &mut turn.dice);
        let mut signals = bits(room.signals, &mut turn.dice);
        let mut curve = bits(room.curve, &mut turn.dice);
        turn.lend("text", &mut lent.text, &text);
        turn.lend("commits", &mut lent.commits, &commits);
        turn.lend("signals", &mut lent.signals, &signals);
        turn.lend("curve", &mut lent.curve, &curve);
        let answer = lent.read();
        let defined = bank::read(&text, room);
        if let Ok(bank) = &defined {
            commits[..bank.commits.len()].copy_from_slice(&bank.commits);
            signals[..bank.signals.len()].copy_from_slice(&bank.signals);
            curve[..bank.curve.len()].copy_from_slice(&bank.curve);
        }
        let of = |bank: &Bank| (bank.commits.len() as u32, bank.depth);
        let defined = defined.as_ref().map(of).map_err(|no| (no.number, no.row));
        turn.answer(answer, read_of(defined));
        turn.refusal = read_of(defined).refusal;
        turn.left("text", &lent.text, &text);
        turn.left("commits", &lent.commits, &commits);
        turn.left("signals", &lent.signals, &signals);
        turn.left("curve", &lent.curve, &curve);
    })
}
