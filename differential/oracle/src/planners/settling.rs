//! How long until a width settles, read from the words of M-111: how many walks, how many rounds they
//! take, and the widths on the way. `arriving` holds it to the unchanged Rust's decisions.
use crate::planners::judge::is_table;
use crate::planners::world::*;
use crate::range::{in_range, in_range_or_infinite, is_finite_and_clear};
use std::collections::BTreeSet;

/// The most candidates behind a first one, and so the most walks; also the largest width.
const MOST: usize = 64;

/// A width, the depth that all of its plans decide for, and the slots that are lent for the way.
#[derive(Clone, Copy, Debug)]
pub struct Question {
    pub width: u32,
    pub target: u32,
    pub slots: usize,
}

#[derive(Clone, Debug, PartialEq, Eq)]
pub enum Settled {
    Refused(u64),
    /// After so many rounds; the widths are those after each walk.
    Within {
        rounds: u64,
        widths: Vec<u32>,
    },
    AtOnce,
    /// There is a max_step, and it is 0. The width is where it stays.
    NoStep(u32),
    /// The target is no candidate. The width is where it stays.
    NoCandidate(u32),
}

/// What a question is answered under a world, whatever its policy.
pub fn settled(world: &World, question: Question) -> Settled {
    let refusal = refusal(world, question);
    if refusal > 0 {
        return Settled::Refused(refusal);
    }
    if is_free(world) {
        return Settled::AtOnce;
    }
    let candidates = candidates(world);
    let start = snapped(&candidates, question.width);
    let target = candidates.iter().position(|&g| g == question.target);
    match (start, target, world.max_step) {
        (None, _, _) => Settled::NoCandidate(question.width),
        (Some(start), None, _) => Settled::NoCandidate(candidates[start]),
        (Some(start), Some(_), Some(0)) => Settled::NoStep(candidates[start]),
        (Some(start), Some(target), step) => {
            let widths = way(&candidates, start, target, step);
            let rounds = widths.len() as u64 * pause(world);
            Settled::Within { rounds, widths }
        }
    }
}

/// The rounds from one walk to the next.
pub fn pause(world: &World) -> u64 {
    world.cooldown.max(1).into()
}

/// Whether no switching holds a width back.
fn is_free(world: &World) -> bool {
    world.cooldown < 2 && world.max_step.is_none() && world.cost_ms << 1 == 0
}

/// The depth that a plan under GatedAggregate may draft to.
fn deepest(world: &World) -> u32 {
    if world.is_trace() {
        world.gamma.min(world.depth)
    } else {
        world.gamma
    }
}

/// The depths of a finite price, ascending.
pub fn candidates(world: &World) -> Vec<u32> {
    let depths = 0..=deepest(world);
    if world.has_table {
        let rows = world.table().expect("columns with room");
        let measured: BTreeSet<u32> = rows.iter().map(|row| row.0).collect();
        return depths.filter(|depth| measured.contains(depth)).collect();
    }
    let roofline = &world.lists[ROOFLINE];
    depths
        .filter(|&depth| is_finite_and_clear(roofline[depth as usize]))
        .collect()
}

/// Where a width stands: at itself, at the next larger candidate, or at the last.
fn snapped(candidates: &[u32], width: u32) -> Option<usize> {
    let smaller = candidates.iter().filter(|&&g| g < width).count();
    let last = candidates.len().checked_sub(1)?;
    Some(smaller.min(last))
}

/// The width after each walk: every walk but the last goes max_step candidates.
fn way(candidates: &[u32], start: usize, target: usize, step: Option<u32>) -> Vec<u32> {
    let distance = start.abs_diff(target);
    let step = step.map_or(usize::MAX, |step| step as usize);
    let walks = distance.div_ceil(step).max(1);
    let after = |walks: usize| {
        let gone = walks.saturating_mul(step).min(distance);
        match start < target {
            true => candidates[start + gone],
            false => candidates[start - gone],
        }
    };
    (1..=walks).map(after).collect()
}

/// 12, 11, 16, then 15; else 0.
fn refusal(world: &World, question: Question) -> u64 {
    let has_bank = !world.is_trace() || (1..=64).contains(&world.depth);
    let has_table = !world.has_table || world.rows <= 4_096;
    if !in_range(world.cost_ms, 0.0, 3_600_000.0) {
        12
    } else if world.gamma > 64 || !has_bank || !has_table {
        11
    } else if !has_prices(world) || question.slots < MOST {
        16
    } else if question.width as usize > MOST || !is_priced(world) {
        15
    } else {
        0
    }
}

fn has_prices(world: &World) -> bool {
    if world.has_table {
        return world.table().is_some();
    }
    world.lists[ROOFLINE].len() > deepest(world) as usize
}

fn is_priced(world: &World) -> bool {
    if world.has_table {
        return is_table(&world.table().expect("columns with room"));
    }
    let is_price = |&price: &u64| in_range_or_infinite(price, 0.0, 1e9);
    let prices = &world.lists[ROOFLINE][..=deepest(world) as usize];
    prices.iter().all(is_price)
}

#[cfg(test)]
mod tests {
    use super::*;

    fn way_of(width: u32, target: usize, step: Option<u32>) -> Vec<u32> {
        let candidates = [0, 2, 4, 6];
        let start = snapped(&candidates, width).unwrap();
        way(&candidates, start, target, step)
    }

    #[test]
    fn a_way_goes_max_step_candidates_a_walk() {
        assert_eq!(way_of(6, 0, Some(1)), [4, 2, 0]);
        assert_eq!(way_of(6, 0, Some(2)), [2, 0]);
        assert_eq!(way_of(6, 0, Some(3)), [0]);
        assert_eq!(way_of(6, 0, Some(u32::MAX)), [0]);
        assert_eq!(way_of(6, 0, None), [0]);
        assert_eq!(way_of(0, 3, Some(2)), [4, 6]);
    }

    #[test]
    fn a_width_that_is_none_starts_at_the_next_larger_or_at_the_last() {
        assert_eq!(way_of(3, 0, Some(1)), [2, 0]);
        assert_eq!(way_of(3, 2, Some(1)), [4]);
        assert_eq!(way_of(64, 2, Some(1)), [4]);
        assert_eq!(snapped(&[], 3), None);
    }
}
