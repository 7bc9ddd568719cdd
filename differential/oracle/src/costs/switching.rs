//! Switching, as docs/RULES.md has it. Floats by their bits.
use crate::range::{in_range, in_range_or_infinite, is_finite_and_clear};
use numbers::word_case::bits_of;

const MOST_WIDTH: u32 = 64;
const MOST_ROUNDS: u32 = u32::MAX - 1;
const MOST_ENTRIES: usize = 65;

#[derive(Clone, Copy, Debug, PartialEq, Eq)]
pub struct Record {
    pub width: u32,
    pub rounds: u32,
    pub stall: u64,
}

#[derive(Clone, Copy, Debug, PartialEq, Eq)]
pub struct Switch {
    pub cooldown_rounds: u32,
    pub max_step: Option<u32>,
    pub cost_ms: u64,
}

impl Record {
    pub fn words(self) -> Vec<u64> {
        vec![self.width.into(), self.rounds.into(), self.stall]
    }

    /// 15, or 0.
    pub fn refusal(self) -> u8 {
        let is_right = self.width <= MOST_WIDTH
            && self.rounds <= MOST_ROUNDS
            && is_finite_and_clear(self.stall);
        if is_right {
            0
        } else {
            15
        }
    }
}

impl Switch {
    /// 1 and a max_step, or two zeros.
    pub fn words(self) -> Vec<u64> {
        let step = self.max_step.map_or([0, 0], |step| [1, step.into()]);
        vec![self.cooldown_rounds.into(), step[0], step[1], self.cost_ms]
    }

    /// 12, or 0.
    pub fn refusal(self) -> u8 {
        if in_range(self.cost_ms, 0.0, 3_600_000.0) {
            0
        } else {
            12
        }
    }

    pub fn is_unconstrained(self) -> bool {
        let is_free = self.cost_ms << 1 == 0;
        self.cooldown_rounds < 2 && self.max_step.is_none() && is_free
    }
}

/// Where the walk over ascending candidates ends.
pub fn walked(candidates: &[u32], width: u32, target: u32, max_step: Option<u32>) -> u32 {
    let Some(last) = candidates.len().checked_sub(1) else {
        return width;
    };
    let not_smaller = candidates.iter().position(|&candidate| candidate >= width);
    let start = not_smaller.unwrap_or(last);
    let asked = candidates.iter().position(|&candidate| candidate == target);
    let end = asked.unwrap_or(start);
    let most = max_step.map_or(usize::MAX, |step| step as usize);
    let steps = start.abs_diff(end).min(most);
    let place = if start < end {
        start + steps
    } else {
        start - steps
    };
    candidates[place]
}

/// One decision after the first: the record behind it, or the refusal's number.
pub fn decided(record: Record, curve: &[u64], target: u32, switch: Switch) -> Result<Record, u8> {
    if switch.refusal() > 0 {
        return Err(12);
    }
    if curve.len() > MOST_ENTRIES {
        return Err(11);
    }
    let is_entry = |&entry: &u64| in_range_or_infinite(entry, 0.0, 1e9);
    if record.refusal() > 0 || !curve.iter().all(is_entry) {
        return Err(15);
    }
    let rounds = record.rounds + 1;
    if rounds < switch.cooldown_rounds.max(1) {
        return Ok(Record { rounds, ..record });
    }
    let depths = 0..curve.len() as u32;
    let is_candidate = |&depth: &u32| is_finite_and_clear(curve[depth as usize]);
    let candidates: Vec<u32> = depths.filter(is_candidate).collect();
    let width = walked(&candidates, record.width, target, switch.max_step);
    let [stall, cost] = [record.stall, switch.cost_ms].map(f64::from_bits);
    let paid = bits_of(stall + 1e-3 * cost);
    Ok(Record {
        width,
        rounds: 0,
        stall: if width == record.width {
            record.stall
        } else {
            paid
        },
    })
}

/// The first decision: the record that it makes.
pub fn first(target: u32) -> Result<Record, u8> {
    if target > MOST_WIDTH {
        return Err(11);
    }
    Ok(Record {
        width: target,
        rounds: 0,
        stall: 0,
    })
}
