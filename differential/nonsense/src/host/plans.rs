//! Plans over any storage.
use super::declared::*;
use super::plan_inputs::{inputs, Inputs, WHOLES};
use super::planned::defined;
use super::stirred::damage_record;
use super::storages::Storages;
use crate::function::Function;
use crate::ledger::layout::{held, ROOM, SECONDS_MOST, SECONDS_WORD, WORKERS_MOST, WORKERS_WORD};
use crate::ledger::{seconds, workers};
use crate::lent::Lent;
use crate::turn::{Mixture, Turn};
use numbers::dice::Dice;
use oracle::planners::judge::Standing;
use oracle::planners::world::*;

/// What the words hold, for a plan that is judged.
pub struct Words<'a>(pub &'a [u64]);

impl Standing for Words<'_> {
    fn record_is_right(&self, a: u64, b: u64) -> Option<bool> {
        workers::record(self.0, a, b).map(|record| record.is_right())
    }

    fn workers_held(&self) -> usize {
        held(self.0, WORKERS_WORD, WORKERS_MOST)
    }

    fn steps_in(&self, second: u64) -> Option<u64> {
        seconds::steps(self.0, second)
    }

    fn seconds_held(&self) -> usize {
        held(self.0, SECONDS_WORD, SECONDS_MOST)
    }
}

pub fn functions() -> Vec<Box<dyn Function>> {
    vec![Box::new(Plans {
        storages: Storages::none(),
        lent: Buffers::default(),
    })]
}

/// The lists of a plan that are floats, in the order in which it takes them; the draws are the last.
const FLOATS: [(usize, &str); 6] = [
    (POSITIONS, "positions"),
    (ROOFLINE, "roofline"),
    (SECONDS, "seconds"),
    (LOADED, "loaded"),
    (SIGNALS, "signals"),
    (CURVE, "bank curve"),
];

struct Plans {
    storages: Storages,
    lent: Buffers,
}

/// All buffers of a plan.
#[derive(Default)]
pub struct Buffers {
    pub floats: [Lent<u64>; 7],
    /// Depths, batches and the bank's commits, then the indices.
    pub wholes: [Lent<u32>; 4],
    pub storage: Lent<u64>,
    pub drafts: Lent<u32>,
    pub commits: Lent<u32>,
}

impl Function for Plans {
    fn name(&self) -> &'static str {
        "latchmeander_plan"
    }

    fn refuses(&self) -> &'static [u64] {
        &[11, 12, 13, 14, 15, 16, 17, 18, 19]
    }

    fn begin(&mut self, dice: &mut Dice) {
        self.storages = Storages::draw(dice);
    }

    fn call(&mut self, turn: &mut Turn) {
        let lent = &mut self.lent;
        let words = self.storages.of(turn.mixture, &mut turn.dice);
        let inputs = inputs(words, turn.mixture, &mut turn.dice);
        if turn.mixture != Mixture::Good && turn.dice.once_in(4) {
            damage_record(words, inputs.ask.a, inputs.ask.b, &mut turn.dice);
        }
        let mut short = Vec::new();
        let words = if inputs.storage < ROOM {
            short.extend(&words[..inputs.storage]);
            &mut short
        } else {
            words
        };
        let slots = [inputs.drafts, inputs.commits];
        let mut slots = slots.map(|len| {
            (0..len)
                .map(|_| turn.dice.bits() as u32)
                .collect::<Vec<u32>>()
        });
        turn.tell("settings", inputs.settings);
        turn.tell("ask", inputs.ask);
        turn.lend("storage", &mut lent.storage, words);
        turn.lend("drafts", &mut lent.drafts, &slots[0]);
        turn.lend("commits", &mut lent.commits, &slots[1]);
        let wholes = lend_lists(turn, &inputs, &mut lent.floats, &mut lent.wholes);
        let answer = lent.planned(&inputs);
        let defined = defined(&inputs, words, &mut slots, turn);
        turn.refusal = defined.refusal;
        turn.answer(answer, defined);
        turn.left("storage", &lent.storage, words);
        turn.left("drafts", &lent.drafts, &slots[0]);
        turn.left("commits", &lent.commits, &slots[1]);
        lent.lists_left(turn, &inputs, &wholes);
    }
}

/// Lends the lists that are read; those of whole numbers as they are lent.
pub fn lend_lists(
    turn: &mut Turn,
    inputs: &Inputs,
    floats: &mut [Lent<u64>; 7],
    wholes: &mut [Lent<u32>; 4],
) -> [Vec<u32>; 4] {
    for ((list, name), lent) in FLOATS.iter().zip(floats.iter_mut()) {
        turn.lend(name, lent, &inputs.lists[*list]);
    }
    turn.lend("draws", &mut floats[6], &inputs.draws);
    let cut = |list: &Vec<u64>| list.iter().map(|&n| n as u32).collect::<Vec<u32>>();
    let [depths, batches, commits] = WHOLES.map(|list| cut(&inputs.lists[list]));
    let lists = [depths, batches, commits, cut(&inputs.indices)];
    let names = ["depths", "batches", "bank commits", "indices"];
    for ((lent, list), name) in wholes.iter_mut().zip(&lists).zip(names) {
        turn.lend(name, lent, list);
    }
    lists
}

impl Buffers {
    /// The lists that are read are as they were lent.
    pub fn lists_left(&self, turn: &mut Turn, inputs: &Inputs, wholes: &[Vec<u32>; 4]) {
        for ((list, name), lent) in FLOATS.iter().zip(&self.floats) {
            turn.left(name, lent, &inputs.lists[*list]);
        }
        turn.left("draws", &self.floats[6], &inputs.draws);
        for (lent, list) in self.wholes.iter().zip(wholes) {
            turn.left("a list of whole numbers", lent, list);
        }
    }

    fn planned(&mut self, inputs: &Inputs) -> Planned {
        let [positions, roofline, seconds, loaded, signals, curve, draws] = &self.floats;
        let [depths, batches, commits, indices] = &self.wholes;
        // SAFETY: the buffers are lent whole and apart.
        unsafe {
            latchmeander_plan(
                inputs.settings,
                inputs.ask,
                positions.floats(),
                positions.len(),
                roofline.floats(),
                roofline.len(),
                depths.at(),
                depths.len(),
                batches.at(),
                batches.len(),
                seconds.floats(),
                seconds.len(),
                loaded.floats(),
                loaded.len(),
                commits.at(),
                commits.len(),
                signals.floats(),
                signals.len(),
                curve.floats(),
                curve.len(),
                draws.floats(),
                draws.len(),
                indices.at(),
                indices.len(),
                self.storage.at_mut(),
                self.storage.len(),
                self.drafts.at_mut(),
                self.drafts.len(),
                self.commits.at_mut(),
                self.commits.len(),
            )
        }
    }
}
