//! The calls that are lent nothing.
use super::declared::*;
use crate::function::{plain, Function};
use crate::turn::Mixture;
use numbers::dice::Dice;
use oracle::storage::ROOM;

const WHOLES: &[u32] = &[0, 1, 2, 63, 64, 65, u32::MAX - 1, u32::MAX];

fn whole(mixture: Mixture, dice: &mut Dice) -> u32 {
    match mixture {
        Mixture::Random => dice.bits() as u32,
        Mixture::Special | Mixture::Damaged => dice.pick(WHOLES),
        Mixture::Good => dice.below(65) as u32,
    }
}

/// The version of the library that the header declares.
const VERSION: u64 = 2;

pub fn functions() -> Vec<Box<dyn Function>> {
    let version = plain("latchmeander_version", &[], |turn| {
        // SAFETY: nothing is lent.
        turn.answer(unsafe { latchmeander_version() }, VERSION)
    });
    let room = plain("latchmeander_room", &[], |turn| {
        // SAFETY: nothing is lent.
        turn.answer(unsafe { latchmeander_room() }, ROOM)
    });
    let accepted = plain("latchmeander_accepted", &[], |turn| {
        let [draft, commits] = [0; 2].map(|_| whole(turn.mixture, &mut turn.dice));
        let is_planned = turn.dice.once_in(2);
        turn.tell("draft, commits, planned", (draft, commits, is_planned));
        // SAFETY: nothing is lent.
        let answer = unsafe { latchmeander_accepted(draft, is_planned, commits) };
        let defined = if is_planned { draft.min(commits) } else { 0 };
        turn.answer(answer, defined);
    });
    vec![version, room, accepted]
}
