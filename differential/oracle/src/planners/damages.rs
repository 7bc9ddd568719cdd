//! Plans with something wrong: a value, a size, a room, a draw. What is wrong with it may lie where no
//! plan looks, and then it is refused for nothing.
use crate::drafter::Drafter;
use crate::drafter_values::{with_constant_loaded, COUNTS, SPECIALS};
use crate::planners::plan::{Plan, ROOM};
use crate::planners::world::*;
use crate::plans::verify_price::MODES;
use numbers::dice::Dice;
use std::rc::Rc;

const HOUR: u64 = 0x414b_7740_0000_0000; // 3,600,000.0
const INFINITE: &[u64] = &[
    0x7ff0_0000_0000_0000,
    0xfff0_0000_0000_0000,
    0x7ff8_0000_0000_0000,
];

/// A longer list is the same few draws again and again. With another among them it would have to be
/// written out, and is too long for a case.
const MOST_DRAWS: usize = 10_000;

/// How many sorts of damage there are, some of them alike.
pub const SORTS: u64 = 20;

/// The plan with one to four things wrong, mostly one.
pub fn damaged(plan: &Plan, dice: &mut Dice) -> Plan {
    let mut plan = plan.clone();
    let mut world = (*plan.world).clone();
    for _ in 0..dice.pick(&[1, 1, 1, 1, 2, 2, 3, 4]) {
        let sort = dice.below(SORTS);
        hurt(&mut plan, &mut world, sort, dice);
    }
    under(plan, world)
}

/// The plan with one thing wrong, of a sort.
pub fn damaged_by(sort: u64, plan: &Plan, dice: &mut Dice) -> Plan {
    let mut plan = plan.clone();
    let mut world = (*plan.world).clone();
    hurt(&mut plan, &mut world, sort, dice);
    under(plan, world)
}

fn under(plan: Plan, mut world: World) -> Plan {
    with_constant_loaded(world.drafter, &mut world.lists[LOADED]);
    Plan {
        world: Rc::new(world),
        ..plan
    }
}

fn hurt(plan: &mut Plan, world: &mut World, sort: u64, dice: &mut Dice) {
    match sort {
        0 | 1 => hurt_settings(world, dice),
        2 => plan.sequences = dice.pick(&[0, 0, 1_024, 1_025, u32::MAX]),
        3 | 4 => hurt_sizes(world, dice),
        5..=7 => hurt_rooms(plan, world, dice),
        8..=11 => hurt_values(world, dice),
        12..=14 => hurt_draws(plan, world, dice),
        15 | 16 => put(&mut world.lists[SIGNALS], INFINITE, dice),
        17 if dice.once_in(4) => world.prices = dice.pick(&MODES),
        17 => world.policy = dice.pick(&POLICIES),
        18 => world.has_table = !world.has_table,
        _ => hurt_table(world, dice),
    }
}

/// One of the entries becomes one of the values.
fn put(list: &mut [u64], values: &[u64], dice: &mut Dice) {
    if !list.is_empty() {
        let at = dice.between(0, list.len() - 1);
        list[at] = dice.pick(values);
    }
}

/// So that at least one entry is missing.
fn shorten(list: &mut Vec<u64>, dice: &mut Dice) {
    if let Some(last) = list.len().checked_sub(1) {
        let left = dice.between(0, last);
        list.truncate(dice.pick(&[last, last, left]));
    }
}

fn hurt_settings(world: &mut World, dice: &mut Dice) {
    let special = dice.pick(SPECIALS);
    match dice.below(6) {
        0 => world.alpha = special,
        1 => world.lists[POSITIONS].push(special),
        2 => world.lists[POSITIONS].resize(dice.pick(&[64, 65, 70]), 0),
        3 => world.cost_ms = dice.pick(&[special, HOUR, HOUR + 1]),
        _ => hurt_drafter(world, dice),
    }
}

fn hurt_drafter(world: &mut World, dice: &mut Dice) {
    let special = dice.pick(SPECIALS);
    let count = dice.pick(COUNTS);
    let which = dice.below(5);
    match &mut world.drafter {
        Drafter::Fraction { frac } => *frac = special,
        Drafter::BlockParallel { params, block } => match which {
            0 | 1 => *block = count,
            _ => *params = special,
        },
        Drafter::Autoregressive {
            dense_params,
            expert_params,
            num_experts,
            experts_per_tok,
            shared_experts,
        } => match which {
            0 => *dense_params = special,
            1 => *expert_params = special,
            2 => *num_experts = count,
            3 => *experts_per_tok = count,
            _ => *shared_experts = count,
        },
    }
}

fn hurt_sizes(world: &mut World, dice: &mut Dice) {
    match dice.below(4) {
        0 => world.gamma = dice.pick(&[64, 65, u32::MAX]),
        1 => world.depth = dice.pick(&[0, 1, 64, 65, u32::MAX]),
        2 => {
            let more = world.rounds.saturating_add(1);
            world.rounds = dice.pick(&[0, more, 65_536, 65_537, u32::MAX]);
        }
        _ => world.rows = dice.pick(&[0, world.rows + 1, 4_096, 4_097, 1 << 32]),
    }
}

fn hurt_rooms(plan: &mut Plan, world: &mut World, dice: &mut Dice) {
    let lists = [
        ROOFLINE, DEPTHS, BATCHES, SECONDS, LOADED, COMMITS, SIGNALS, CURVE,
    ];
    match dice.below(8) {
        0 => {
            let any = dice.between(0, ROOM - 1);
            plan.storage = dice.pick(&[0, 1, ROOM - 1, any]);
        }
        1 => plan.drafts = (plan.sequences.clamp(1, 1_025) - 1) as usize,
        2 => plan.commits = (plan.sequences.clamp(1, 1_025) - 1) as usize,
        _ => shorten(&mut world.lists[dice.pick(&lists)], dice),
    }
}

fn hurt_values(world: &mut World, dice: &mut Dice) {
    let special = dice.pick(SPECIALS);
    match dice.below(10) {
        0 => world.rates.peak = special,
        1 => world.rates.bw = special,
        2 => world.rates.kv_delta = special,
        3 | 4 => put(&mut world.lists[ROOFLINE], SPECIALS, dice),
        5 | 6 => put(&mut world.lists[LOADED], SPECIALS, dice),
        7 => put(&mut world.lists[SIGNALS], SPECIALS, dice),
        _ => put(&mut world.lists[CURVE], SPECIALS, dice),
    }
}

fn hurt_table(world: &mut World, dice: &mut Dice) {
    let list = dice.pick(&[DEPTHS, BATCHES]);
    match dice.below(3) {
        0 => put(&mut world.lists[SECONDS], SPECIALS, dice),
        1 => put(&mut world.lists[list], &[0, 1, 64, u32::MAX.into()], dice),
        _ if world.lists[list].len() > 1 => {
            let at = dice.between(1, world.lists[list].len() - 1);
            world.lists[list].swap(at - 1, at);
        }
        _ => {}
    }
}

fn hurt_draws(plan: &mut Plan, world: &World, dice: &mut Dice) {
    let rounds = u64::from(world.rounds);
    match dice.below(2) {
        0 if world.is_trace() => shorten(&mut plan.indices, dice),
        0 => shorten(&mut plan.draws, dice),
        _ if world.is_trace() => {
            let past = [rounds, rounds + 1, u32::MAX.into()];
            put(&mut plan.indices, &past, dice)
        }
        _ => {
            plan.draws.truncate(MOST_DRAWS);
            put(&mut plan.draws, SPECIALS, dice)
        }
    }
}
