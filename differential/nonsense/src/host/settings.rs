//! The record of settings that crosses by value: filled with bits, written and read.
use super::declared::{Ask, Settings};
use numbers::dice::Dice;
use oracle::drafter::{Drafter, Rates};
use oracle::model::{Kind, KINDS};
use oracle::planners::world::{World, POLICIES};
use oracle::plans::verify_price::MODES;

/// All fields from some bits.
pub fn settings_bits(bits: &mut dyn FnMut(&mut Dice) -> u64, dice: &mut Dice) -> Settings {
    let floats = [0; 6].map(|_| f64::from_bits(bits(dice)));
    let wholes = [0; 12].map(|_| bits(dice) as u32);
    Settings {
        alpha: floats[0],
        cost_ms: floats[1],
        frac: floats[2],
        dense_params: floats[3],
        expert_params: floats[4],
        params: floats[5],
        gamma: wholes[0],
        policy: wholes[1],
        model: wholes[2],
        drafter: wholes[3],
        cooldown_rounds: wholes[4],
        steps: wholes[5],
        max_step: wholes[6],
        num_experts: wholes[7],
        experts_per_tok: wholes[8],
        shared_experts: wholes[9],
        block: wholes[10],
        prices: wholes[11],
    }
}

/// The drafter and numbers of cases that are known; any bits in the fields that are not read.
pub fn settings_of_drafter(drafter: Drafter, dice: &mut Dice) -> Settings {
    let mut settings = settings_bits(&mut |dice| dice.bits(), dice);
    settings.policy = dice.below(4) as u32;
    settings.model = dice.below(3) as u32;
    settings.steps = dice.below(2) as u32;
    settings.prices = dice.below(2) as u32;
    match drafter {
        Drafter::Fraction { frac } => {
            settings.drafter = 0;
            settings.frac = f64::from_bits(frac);
        }
        Drafter::Autoregressive {
            dense_params,
            expert_params,
            num_experts,
            experts_per_tok,
            shared_experts,
        } => {
            settings.drafter = 1;
            settings.dense_params = f64::from_bits(dense_params);
            settings.expert_params = f64::from_bits(expert_params);
            settings.num_experts = num_experts;
            settings.experts_per_tok = experts_per_tok;
            settings.shared_experts = shared_experts;
        }
        Drafter::BlockParallel { params, block } => {
            settings.drafter = 2;
            settings.params = f64::from_bits(params);
            settings.block = block;
        }
    }
    settings
}

/// The drafter of settings whose numbers of cases all stand for one.
pub fn drafter_of(settings: &Settings) -> Option<Drafter> {
    if settings.policy > 3 || settings.model > 2 || settings.steps > 1 || settings.prices > 1 {
        return None;
    }
    match settings.drafter {
        0 => Some(Drafter::Fraction {
            frac: settings.frac.to_bits(),
        }),
        1 => Some(Drafter::Autoregressive {
            dense_params: settings.dense_params.to_bits(),
            expert_params: settings.expert_params.to_bits(),
            num_experts: settings.num_experts,
            experts_per_tok: settings.experts_per_tok,
            shared_experts: settings.shared_experts,
        }),
        2 => Some(Drafter::BlockParallel {
            params: settings.params.to_bits(),
            block: settings.block,
        }),
        _ => None,
    }
}

/// A world's settings as they cross; any bits in the fields that are not read.
pub fn settings_of(world: &World, dice: &mut Dice) -> Settings {
    let mut settings = settings_of_drafter(world.drafter, dice);
    settings.gamma = world.gamma;
    settings.policy = world.policy as u32;
    settings.model = world.kind as u32;
    if world.kind == Kind::Constant {
        settings.alpha = f64::from_bits(world.alpha);
    }
    settings.cooldown_rounds = world.cooldown;
    settings.steps = world.max_step.is_some().into();
    if let Some(step) = world.max_step {
        settings.max_step = step;
    }
    settings.cost_ms = f64::from_bits(world.cost_ms);
    settings.prices = world.prices as u32;
    settings
}

/// What settings and an ask stand for beside these lists; nothing where a number stands for no case.
pub fn world_of(settings: &Settings, ask: &Ask, lists: [Vec<u64>; 9]) -> Option<World> {
    let drafter = drafter_of(settings)?;
    if ask.source > 1 {
        return None;
    }
    Some(World {
        drafter,
        rates: Rates {
            peak: ask.rates.peak.to_bits(),
            bw: ask.rates.bw.to_bits(),
            kv_delta: ask.rates.kv_delta.to_bits(),
        },
        gamma: settings.gamma,
        kind: KINDS[settings.model as usize],
        alpha: settings.alpha.to_bits(),
        policy: POLICIES[settings.policy as usize],
        cooldown: settings.cooldown_rounds,
        max_step: (settings.steps == 1).then_some(settings.max_step),
        cost_ms: settings.cost_ms.to_bits(),
        prices: MODES[settings.prices as usize],
        has_table: ask.source == 1,
        rows: ask.rows as u64,
        depth: ask.depth,
        rounds: ask.rounds,
        lists,
    })
}
