//! What plans are asked with and lent, of every mixture.
use super::declared::{Ask, Rates, Settings};
use super::settings::{settings_bits, settings_of};
use super::storages::{second, worker};
use crate::turn::Mixture;
use numbers::dice::Dice;
use oracle::drafter_values::{with_constant_loaded, SPECIALS};
use oracle::planners::damages::damaged;
use oracle::planners::plan::Plan;
use oracle::planners::world::*;
use oracle::planners::worlds::{self, Shape};
use std::rc::Rc;

/// The lists of whole numbers among those of a world.
pub const WHOLES: [usize; 3] = [DEPTHS, BATCHES, COMMITS];

/// All but the storage, floats by their bits.
pub struct Inputs {
    pub settings: Settings,
    pub ask: Ask,
    pub lists: [Vec<u64>; 9],
    pub draws: Vec<u64>,
    pub indices: Vec<u64>,
    /// The words of the storage and the slots of drafts and commits that are lent.
    pub storage: usize,
    pub drafts: usize,
    pub commits: usize,
}

impl Inputs {
    /// The plan that they ask for in a world, over so many words and slots of drafts and commits.
    pub fn plan(&self, world: World, [storage, drafts, commits]: [usize; 3]) -> Plan {
        Plan {
            world: Rc::new(world),
            draws: self.draws.clone(),
            indices: self.indices.clone(),
            a: self.ask.a,
            b: self.ask.b,
            sequences: self.ask.sequences,
            end: self.ask.end.to_bits(),
            storage,
            drafts,
            commits,
        }
    }
}

/// Where bits come from.
type Bits<'a> = &'a mut dyn FnMut(&mut Dice) -> u64;

pub fn inputs(words: &[u64], mixture: Mixture, dice: &mut Dice) -> Inputs {
    let good = good_plan(words, dice);
    let mut inputs = match mixture {
        Mixture::Good => of_plan(&good, dice),
        Mixture::Damaged => of_plan(&damaged(&good, dice), dice),
        Mixture::Random => replaced(of_plan(&good, dice), &mut |dice| dice.bits(), dice),
        Mixture::Special => replaced(of_plan(&good, dice), &mut |dice| dice.pick(SPECIALS), dice),
    };
    if mixture == Mixture::Damaged && dice.once_in(16) {
        hurt_case(&mut inputs, dice);
    }
    inputs
}

/// A plan that is refused for no value that it brings along, of a worker and in a second that may be held.
fn good_plan(words: &[u64], dice: &mut Dice) -> Plan {
    let shape = Shape::random(dice);
    let policy = match dice.below(4) {
        0 => Policy::GatedAggregate,
        _ => dice.pick(&POLICIES),
    };
    let world = Rc::new(worlds::world(shape, policy, dice));
    let least = usize::from(!dice.once_in(64));
    let n = dice.between(least, shape.most);
    let mut plan = worlds::plan(&world, n, dice);
    (plan.a, plan.b) = worker(words, dice);
    plan.end = match (dice.below(16), second(words, dice)) {
        (0, any) => any,
        (_, second) if second < 1 << 50 => (second as f64 + 0.25).to_bits(),
        (_, second) => (second as f64).to_bits(),
    };
    plan
}

fn of_plan(plan: &Plan, dice: &mut Dice) -> Inputs {
    let world = &*plan.world;
    let [peak, bw, kv_delta] =
        [world.rates.peak, world.rates.bw, world.rates.kv_delta].map(f64::from_bits);
    Inputs {
        settings: settings_of(world, dice),
        ask: Ask {
            a: plan.a,
            b: plan.b,
            end: f64::from_bits(plan.end),
            rates: Rates { peak, bw, kv_delta },
            rows: world.rows as usize,
            sequences: plan.sequences,
            source: world.has_table.into(),
            depth: world.depth,
            rounds: world.rounds,
        },
        lists: world.lists.clone(),
        draws: plan.draws.clone(),
        indices: plan.indices.clone(),
        storage: plan.storage,
        drafts: plan.drafts,
        commits: plan.commits,
    }
}

/// Some of the inputs, or all, made of other bits.
fn replaced(mut inputs: Inputs, bits: Bits, dice: &mut Dice) -> Inputs {
    let times = dice.pick(&[1, 2, 8, 16]);
    if dice.once_in(times) {
        inputs.settings = mixed(inputs.settings, bits, dice);
    }
    if dice.once_in(times) {
        inputs.ask = other_ask(inputs.ask, bits, dice);
    }
    for list in 0..inputs.lists.len() {
        if dice.once_in(times) {
            inputs.lists[list] = other(&inputs.lists[list], bits, dice);
        }
        if WHOLES.contains(&list) {
            cut(&mut inputs.lists[list]);
        }
    }
    if dice.once_in(times) {
        inputs.draws = other(&inputs.draws, bits, dice);
        inputs.indices = other(&inputs.indices, bits, dice);
        cut(&mut inputs.indices);
    }
    if inputs.settings.drafter == 1 {
        let drafter = super::settings::drafter_of(&inputs.settings);
        drafter.iter().for_each(|&drafter| {
            with_constant_loaded(drafter, &mut inputs.lists[LOADED]);
        });
    }
    inputs
}

/// As long as it was mostly, of other bits in one place or in all.
fn other(list: &[u64], bits: Bits, dice: &mut Dice) -> Vec<u64> {
    let any = dice.between(0, 9);
    let len = dice.pick(&[list.len(), list.len(), any]);
    let mut other = list.to_vec();
    other.resize_with(len, || bits(dice));
    let is_all = dice.once_in(2);
    let one = dice.between(0, len.max(1) - 1);
    for (at, element) in other.iter_mut().enumerate() {
        if is_all || at == one {
            *element = bits(dice);
        }
    }
    other
}

/// Whole numbers have 32 bits.
fn cut(list: &mut [u64]) {
    for element in list {
        *element &= u64::from(u32::MAX);
    }
}

/// Settings of any bits, the numbers of cases known mostly.
fn mixed(settings: Settings, bits: Bits, dice: &mut Dice) -> Settings {
    let any = settings_bits(bits, dice);
    if dice.once_in(4) {
        return any;
    }
    Settings {
        gamma: dice.pick(&[settings.gamma, any.gamma]),
        policy: settings.policy,
        model: settings.model,
        drafter: settings.drafter,
        steps: settings.steps,
        prices: settings.prices,
        ..any
    }
}

fn other_ask(ask: Ask, bits: Bits, dice: &mut Dice) -> Ask {
    let words = [0; 7].map(|_| bits(dice));
    let mut other = ask;
    match dice.below(6) {
        0 => (other.a, other.b) = (words[0], words[1]),
        1 => other.end = f64::from_bits(words[2]),
        2 => {
            let [peak, bw, kv_delta] = [words[3], words[4], words[5]].map(f64::from_bits);
            other.rates = Rates { peak, bw, kv_delta };
        }
        3 => other.rows = words[6] as usize,
        4 => (other.sequences, other.depth) = (words[0] as u32, words[1] as u32),
        _ => (other.source, other.rounds) = (words[2] as u32, words[3] as u32),
    }
    other
}

/// A number that may stand for no case.
fn hurt_case(inputs: &mut Inputs, dice: &mut Dice) {
    let number = dice.pick(&[2, 3, 4, u32::MAX]);
    match dice.below(6) {
        0 => inputs.settings.policy = number,
        1 => inputs.settings.model = number,
        2 => inputs.settings.drafter = number,
        3 => inputs.settings.steps = number,
        4 => inputs.settings.prices = number,
        _ => inputs.ask.source = number,
    }
    if let Some(drafter) = super::settings::drafter_of(&inputs.settings) {
        with_constant_loaded(drafter, &mut inputs.lists[LOADED]);
    }
}

#[cfg(test)]
mod tests {
    use super::super::settings::world_of;
    use super::*;
    use oracle::model::Kind;

    /// What a plan is asked with crosses as records and is read back from them.
    #[test]
    fn records_carry_a_world() {
        let (mut dice, words) = (Dice::new(5), vec![0; crate::ledger::layout::ROOM]);
        for _ in 0..200 {
            let plan = good_plan(&words, &mut dice);
            let Inputs {
                settings,
                ask,
                lists,
                ..
            } = of_plan(&plan, &mut dice);
            let mut read = world_of(&settings, &ask, lists).expect("known cases");
            if read.kind != Kind::Constant {
                read.alpha = plan.world.alpha;
            }
            assert_eq!(read, *plan.world);
        }
    }
}
