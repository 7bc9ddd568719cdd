//! Questions how long a width takes to settle, and the switching that they are asked under.
use crate::planners::settling::Question;
use crate::planners::world::World;
use numbers::dice::Dice;

/// The most slots that a case may lend for the widths on the way.
pub const MOST_WIDTHS: usize = 80;

/// A question under a world; `held` is the width of a worker. Mostly it is answered.
pub fn question(world: &World, held: Option<u32>, dice: &mut Dice) -> Question {
    let deep = u64::from(world.gamma.min(64)) + 2;
    let any = dice.below(deep) as u32;
    let width = match dice.below(16) {
        0 => dice.pick(&[63, 64, 65, 66, u32::MAX]),
        1..=3 => dice.below(65) as u32,
        4..=7 => held.unwrap_or(any),
        _ => any,
    };
    let target = match dice.below(16) {
        0 => dice.pick(&[63, 64, 65, u32::MAX]),
        _ => dice.below(deep) as u32,
    };
    let slots = match dice.below(16) {
        0 => dice.pick(&[0, 1, 63]),
        _ => dice.pick(&[64, 64, 64, 65, MOST_WIDTHS]),
    };
    Question {
        width,
        target,
        slots,
    }
}

/// Switching of any sort; mostly constrained.
pub fn set_switch(world: &mut World, dice: &mut Dice) {
    let any = dice.bits() as u32;
    world.cooldown = dice.pick(&[0, 1, 1, 2, 3, 7, 100, any, u32::MAX - 1, u32::MAX]);
    let steps = [1, 1, 1, 2, 3, 5, 64, 65, any, u32::MAX];
    world.max_step = match dice.below(8) {
        0 | 1 => None,
        2 => Some(0),
        _ => Some(dice.pick(&steps)),
    };
    let cost: f64 = match dice.below(16) {
        0 => dice.pick(&[-0.0, 3_600_001.0, f64::NAN]),
        _ => dice.pick(&[0.0, 0.0, 5.0, 33.3, 3_600_000.0]),
    };
    world.cost_ms = cost.to_bits();
}
