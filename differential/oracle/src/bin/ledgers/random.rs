//! Random sequences from a seed, without end.
use crate::call::{Call, Step};
use crate::drawing::{sequences, share, step, target, workers, Calls};
use crate::sequence::{Sequence, MOST_SLOTS, ROOM, WHOLE};
use crate::sequence_case::SequenceCase;
use numbers::dice::Dice;
use numbers::kept::Kept;
use oracle::clock::{end_in, Clock};

const MOST_WORKERS: usize = 256;
const MOST_SECONDS: usize = 4096;

/// The sentence that says the space.
pub fn space(seed: u64) -> String {
    format!(
        "space: random sequences of up to 300 calls on one storage, with clocks that go back, end \
         times of any pattern, withdrawals up to 70 deep and storages and buffers too short; some \
         with 4,096 seconds, with 256 workers or with 1,000,000 steps in a second; seed {seed}"
    )
}

pub fn cases(seed: u64) -> impl Iterator<Item = SequenceCase> {
    let mut dice = Dice::new(seed);
    std::iter::repeat_with(move || sequence(&mut dice).case())
}

/// The sequence at a place with the calls that are kept and the first, which empties the storage; and
/// how many calls it has with all.
pub fn with_calls(seed: u64, place: usize, kept: &Kept) -> (SequenceCase, usize) {
    let mut dice = Dice::new(seed);
    let mut sequences = std::iter::repeat_with(|| sequence(&mut dice));
    let whole = sequences.nth(place).expect("they have no end");
    let calls = whole.calls.iter().enumerate();
    let calls = calls.filter(|(place, _)| *place == 0 || kept.has(*place));
    let calls = calls.map(|(_, call)| call.clone()).collect();
    let count = whole.calls.len();
    (Sequence { calls, ..whole }.case(), count)
}

/// Most are short; one in some thousands fills a second.
fn sequence(dice: &mut Dice) -> Sequence {
    match dice.below(100) {
        0 if dice.once_in(50) => full_second(dice.between(999_996, 1_000_003) as u64, dice),
        0 => full_seconds(dice.between(5, 30), dice),
        1 => full_workers(dice.between(5, 60), dice),
        2..=9 => no_room(dice),
        10..=14 => of_length(b'l', dice.between(61, 300), dice),
        _ => of_length(b's', dice.between(5, 60), dice),
    }
}

/// Ordinary calls behind a first one that empties the storage.
pub fn of_length(kind: u8, length: usize, dice: &mut Dice) -> Sequence {
    let most = dice.pick(&[1, 2, 4, 6]);
    let workers = workers(dice.between(0, most), dice);
    let mut draw = Calls::new(Clock::draw(dice), workers.len(), dice);
    let mut calls = vec![Call::Fresh];
    calls.extend(draw.draw(length - 1, dice));
    if dice.once_in(20) {
        let at = dice.between(1, length - 1);
        calls[at] = Call::Fresh;
    }
    Sequence {
        kind,
        lent: dice.pick(&[ROOM, ROOM, ROOM, ROOM + 1, WHOLE]),
        slots: [dice.between(length, 2 * length); 4],
        workers,
        calls,
    }
}

/// A storage that is too short, or buffers that are for some of the series, one alone or several.
pub fn no_room(dice: &mut Dice) -> Sequence {
    let sequence = of_length(b'n', dice.between(5, 40), dice);
    if dice.once_in(4) {
        let any = dice.between(0, ROOM - 1);
        let lent = dice.pick(&[0, 1, 2, 3, ROOM - 1, any]);
        return Sequence { lent, ..sequence };
    }
    let mut slots = sequence.slots;
    let least = dice.between(0, 12);
    if dice.once_in(2) {
        slots[dice.between(0, 3)] = least;
        return Sequence { slots, ..sequence };
    }
    for buffer in &mut slots {
        *buffer = dice.pick(&[*buffer, least, least, least + 1]);
    }
    Sequence { slots, ..sequence }
}

/// As many seconds as there may be, or nearly, in two runs that lie in each other at times.
pub fn full_seconds(length: usize, dice: &mut Dice) -> Sequence {
    let workers = workers(dice.between(0, 3), dice);
    let count = dice.between(MOST_SECONDS - 6, MOST_SECONDS + 4) as u64;
    let second = dice.below(1_000_000);
    let apart = dice.pick(&[1, 2, 60, 86_400]);
    let mut calls = vec![Call::Fresh];
    let mut fill = |count, second, apart, dice: &mut Dice| {
        calls.push(Call::ManyPlans {
            count,
            apart,
            first: step(end_in(second), dice),
        });
    };
    if dice.once_in(2) {
        fill(count, second, apart, dice);
    } else {
        let odd = count / 2;
        fill(odd, second + apart, 2 * apart, dice);
        fill(count - odd, second, 2 * apart, dice);
    }
    let clock = Clock::Near {
        second,
        step: apart,
        count,
    };
    let mut draw = Calls::new(clock, workers.len(), dice);
    calls.extend(draw.draw(length, dice));
    Sequence {
        kind: b'f',
        lent: ROOM,
        slots: [dice.pick(&[MOST_SECONDS - 1, MOST_SECONDS, MOST_SLOTS]); 4],
        workers,
        calls,
    }
}

/// As many workers as there may be, or nearly; at times with as many seconds.
pub fn full_workers(length: usize, dice: &mut Dice) -> Sequence {
    let workers = workers(dice.between(MOST_WORKERS, MOST_WORKERS + 4), dice);
    let second = dice.below(100);
    let mut calls = vec![Call::Fresh];
    let has_seconds = dice.once_in(4);
    if has_seconds {
        calls.push(Call::ManyPlans {
            count: MOST_SECONDS as u64,
            apart: 1,
            first: step(end_in(second), dice),
        });
    }
    calls.push(Call::ManyWorkers {
        count: dice.between(MOST_WORKERS - 5, workers.len()),
        from: 0,
        end: end_in(second),
        sequences: sequences(dice),
        share: share(dice),
        target: target(dice),
    });
    let count = if has_seconds { MOST_SECONDS } else { 5 } as u64;
    let clock = Clock::Near {
        second,
        step: 1,
        count,
    };
    let mut draw = Calls::new(clock, workers.len(), dice);
    calls.extend(draw.draw(length, dice));
    Sequence {
        kind: b'f',
        lent: ROOM,
        slots: [MOST_SLOTS; 4],
        workers,
        calls,
    }
}

/// So many steps in a second: nearly as many as there may be, or more.
pub fn full_second(count: u64, dice: &mut Dice) -> Sequence {
    let workers = workers(2, dice);
    let second = dice.below(100);
    let drafts = dice.pick(&[3, 65_536]);
    let many = Call::ManyPlans {
        count,
        apart: 0,
        first: Step {
            end: end_in(second),
            drafts,
            sequences: dice.pick(&[1, 1024]),
            committed: dice.pick(&[0, 2, drafts]),
        },
    };
    let clock = Clock::Near {
        second,
        step: 1,
        count: 1,
    };
    let mut calls = vec![Call::Fresh, many];
    calls.extend(Calls::new(clock, workers.len(), dice).draw(8, dice));
    Sequence {
        kind: b'f',
        lent: ROOM,
        slots: [MOST_SLOTS; 4],
        workers,
        calls,
    }
}
