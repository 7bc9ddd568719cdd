//! A call that is lent a storage, and what the calls of a block share: a storage of each mixture.
use super::storages::Storages;
use crate::function::Function;
use crate::ledger::layout::ROOM;
use crate::lent::Lent;
use crate::turn::Turn;
use numbers::dice::Dice;

/// A call over words that are lent; it leaves in the other words what the definition leaves.
type Call = Box<dyn FnMut(&mut Turn, &mut Lent<u64>, &mut [u64])>;

struct OverStorage {
    name: &'static str,
    refuses: &'static [u64],
    storages: Storages,
    lent: Lent<u64>,
    call: Call,
}

impl Function for OverStorage {
    fn name(&self) -> &'static str {
        self.name
    }

    fn refuses(&self) -> &'static [u64] {
        self.refuses
    }

    fn begin(&mut self, dice: &mut Dice) {
        self.storages = Storages::draw(dice);
    }

    fn call(&mut self, turn: &mut Turn) {
        let words = self.storages.of(turn.mixture, &mut turn.dice);
        let mut short;
        let words = if turn.dice.once_in(8) {
            let any = turn.dice.between(0, ROOM - 1);
            let len = turn.dice.pick(&[0, 1, ROOM - 1, any]);
            short = words[..len].to_vec();
            &mut short[..]
        } else {
            &mut words[..]
        };
        turn.lend("storage", &mut self.lent, words);
        (self.call)(turn, &mut self.lent, words);
        turn.left("storage", &self.lent, words);
    }
}

pub fn over(
    name: &'static str,
    refuses: &'static [u64],
    call: impl FnMut(&mut Turn, &mut Lent<u64>, &mut [u64]) + 'static,
) -> Box<dyn Function> {
    Box::new(OverStorage {
        name,
        refuses,
        storages: Storages::none(),
        lent: Lent::new(),
        call: Box::new(call),
    })
}

/// 16, or the refusal of what has room.
pub fn judged(words: &[u64], then: u64) -> u64 {
    if words.len() < ROOM {
        16
    } else {
        then
    }
}
