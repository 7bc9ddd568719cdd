//! What the plans of cases met: each refusal, and each way in which a plan was made; and what the questions
//! how long a width takes to settle met.
use numbers::shapes::{shape_of, Shapes};
use oracle::drafter::Drafter;
use oracle::planners::judge::is_constrained;
use oracle::planners::plan::Planned;
use oracle::planners::settling::{candidates, Question, Settled};
use oracle::planners::world::{Policy, World, ROOFLINE};
use oracle::plans::prices::{is_deep, INFINITY};
use std::fmt::{self, Display};

const POLICIES: [&str; 4] = ["Fixed", "GoodputBudget", "GatedBudget", "GatedAggregate"];
const MODELS: [&str; 3] = ["Constant", "PerPosition", "Trace"];
const DRAFTERS: [&str; 4] = ["none", "Fraction", "Autoregressive", "BlockParallel"];
const PRICES: [&str; 2] = ["roofline", "table"];
const SWITCHING: [&str; 2] = ["free", "constrained"];
const MODES: [&str; 2] = ["gated by default", "bridged"];
const SETTLING: [&str; 4] = ["within", "at once", "no step", "no candidate"];

/// Counts of plans; of those that were made, by what they were made under.
#[derive(Clone, Debug, Default, PartialEq, Eq, Hash)]
pub struct Met {
    pub refused: [u64; 22],
    pub empty: u64,
    pub policies: [u64; 4],
    pub models: [u64; 3],
    pub drafters: [u64; 4],
    pub prices: [u64; 2],
    pub switching: [u64; 2],
    /// Of the plans under GatedBudget.
    pub modes: [u64; 2],
    pub weighed: u64,
    pub sequences: u64,
    pub shapes: Shapes,
    /// The questions that are refused, by number; what the others are answered; and their shapes.
    pub not_settling: [u64; 22],
    pub settling: [u64; 4],
    pub settling_shapes: Shapes,
    /// The walks of those that arrive.
    pub walks: u64,
    /// The ways that a planner's worker went to their end, and the rounds that it made on them.
    pub gone: u64,
    pub rounds: u64,
}

impl Met {
    /// A way that was gone in so many rounds.
    pub fn count_way(&mut self, rounds: u64) {
        self.gone += 1;
        self.rounds += rounds;
    }

    /// A question how long a width takes to settle, and its answer.
    pub fn count_settling(&mut self, world: &World, question: Question, settled: &Settled) {
        let answered = match settled {
            Settled::Refused(number) => {
                self.not_settling[*number as usize] += 1;
                return;
            }
            Settled::Within { widths, .. } => {
                self.walks += widths.len() as u64;
                0
            }
            Settled::AtOnce => 1,
            Settled::NoStep(_) => 2,
            Settled::NoCandidate(_) => 3,
        };
        self.settling[answered] += 1;
        let candidates = candidates(world);
        let is_whole = (0..).zip(&candidates).all(|(at, &depth)| at == depth);
        self.settling_shapes.count(shape_of(&[
            ("of a table", world.has_table),
            ("many", candidates.len() > 16),
            ("none", candidates.is_empty()),
            ("with holes", !is_whole),
            ("snapped", !candidates.contains(&question.width)),
            ("there", question.width == question.target),
            (
                "by steps",
                matches!(settled, Settled::Within { widths, .. } if widths.len() > 1),
            ),
        ]));
    }

    /// A plan and what it answered; `stalled`: whether its worker had a stall before it.
    pub fn count(&mut self, world: &World, planned: &Planned, stalled: bool) {
        let (weighed, drafts) = match planned {
            Planned::Refused(number) => {
                self.refused[*number as usize] += 1;
                return;
            }
            Planned::Empty => {
                self.empty += 1;
                return;
            }
            Planned::Plan {
                weighed, drafts, ..
            } => (weighed, drafts),
        };
        let drafter = match world.drafter {
            Drafter::Fraction { frac: 0 } => 0,
            Drafter::Fraction { .. } => 1,
            Drafter::Autoregressive { .. } => 2,
            Drafter::BlockParallel { .. } => 3,
        };
        self.policies[world.policy as usize] += 1;
        self.models[world.kind as usize] += 1;
        self.drafters[drafter] += 1;
        self.prices[usize::from(world.has_table)] += 1;
        self.switching[usize::from(is_constrained(world))] += 1;
        if world.policy == Policy::GatedBudget {
            self.modes[world.prices as usize] += 1;
        }
        self.weighed += weighed;
        self.sequences += drafts.len() as u64;
        self.shapes.count(shape_of(&[
            ("deep", is_deep(world.capped())),
            ("uneven", drafts.iter().any(|&draft| draft != drafts[0])),
            ("with holes", has_holes(world)),
            ("stalled", stalled),
            ("bridged", world.is_bridged()),
        ]));
    }

    pub fn add(&mut self, more: &Met) {
        let sums = [
            (&mut self.refused[..], &more.refused[..]),
            (&mut self.policies, &more.policies),
            (&mut self.models, &more.models),
            (&mut self.drafters, &more.drafters),
            (&mut self.prices, &more.prices),
            (&mut self.switching, &more.switching),
            (&mut self.modes, &more.modes),
            (&mut self.not_settling, &more.not_settling),
            (&mut self.settling, &more.settling),
        ];
        for (sums, more) in sums {
            for (sum, more) in sums.iter_mut().zip(more) {
                *sum += more;
            }
        }
        self.empty += more.empty;
        self.weighed += more.weighed;
        self.sequences += more.sequences;
        self.shapes.add(&more.shapes);
        self.settling_shapes.add(&more.settling_shapes);
        self.walks += more.walks;
        self.gone += more.gone;
        self.rounds += more.rounds;
    }

    pub fn made(&self) -> u64 {
        self.policies.iter().sum()
    }
}

/// Whether a depth that a plan may draft to has no finite price.
fn has_holes(world: &World) -> bool {
    let mut depths = 0..=world.capped();
    match world.table() {
        _ if world.policy == Policy::Fixed => false,
        Some(rows) if world.has_table => depths.any(|g| rows.iter().all(|row| row.0 != g)),
        _ => {
            let prices = world.lists[ROOFLINE].iter().take(depths.count());
            prices.clone().any(|&price| price == INFINITY)
        }
    }
}

fn named(names: &[&str], counts: &[u64]) -> String {
    let each = names.iter().zip(counts);
    let each: Vec<String> = each.map(|(name, n)| format!("{name}: {n}")).collect();
    each.join(", ")
}

/// The counts that are not 0, each behind its number.
fn numbered(counts: &[u64]) -> String {
    let met = counts.iter().enumerate().filter(|(_, n)| **n > 0);
    let met: Vec<String> = met.map(|(key, n)| format!("{key}: {n}")).collect();
    met.join(", ")
}

impl Met {
    fn fmt_settling(&self, f: &mut fmt::Formatter<'_>) -> fmt::Result {
        let refused: u64 = self.not_settling.iter().sum();
        let asked = refused + self.settling.iter().sum::<u64>();
        if asked == 0 {
            return Ok(());
        }
        let numbers = numbered(&self.not_settling);
        let (walks, shapes) = (self.walks, &self.settling_shapes);
        write!(
            f,
            "\nsettles {asked}; walks {walks}; refused {refused} ({numbers}); {shapes}"
        )?;
        let [gone, rounds] = [self.gone, self.rounds];
        write!(f, "\n{}", named(&SETTLING, &self.settling))?;
        write!(f, "\nways gone {gone}, rounds on them {rounds}")
    }
}

impl Display for Met {
    fn fmt(&self, f: &mut fmt::Formatter<'_>) -> fmt::Result {
        let refused: u64 = self.refused.iter().sum();
        let plans = self.made() + self.empty + refused;
        writeln!(f, "plans {plans}; empty {}", self.empty)?;
        writeln!(f, "refused {refused} ({})", numbered(&self.refused))?;
        let [weighed, sequences] = [self.weighed, self.sequences];
        writeln!(
            f,
            "made {}, sequences {sequences}, weighed {weighed}",
            self.made()
        )?;
        writeln!(f, "{}", named(&POLICIES, &self.policies))?;
        writeln!(f, "{}", named(&MODELS, &self.models))?;
        writeln!(f, "{}", named(&DRAFTERS, &self.drafters))?;
        writeln!(f, "{}", named(&PRICES, &self.prices))?;
        writeln!(f, "{}", named(&SWITCHING, &self.switching))?;
        writeln!(f, "{}", named(&MODES, &self.modes))?;
        write!(f, "{}", self.shapes)?;
        self.fmt_settling(f)
    }
}
