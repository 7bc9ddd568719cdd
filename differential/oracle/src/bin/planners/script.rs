//! The turns of a case, and their answers: what a planner is lent, each call on it, and what the call
//! answers and leaves.
use crate::held::Held;
use crate::met::Met;
use crate::planner_case::PlannerCase;
use numbers::kept::Kept;
use numbers::word_case::WordCase;
use oracle::clock::end_in;
use oracle::planners::arriving::assert_arrives;
use oracle::planners::plan::{Plan, Planned, MOST_SLOTS, WHOLE};
use oracle::planners::questions::MOST_WIDTHS;
use oracle::planners::settling::{settled, Question, Settled};
use oracle::planners::world::{World, MODE_REGISTER};
use oracle::plans::verify_price::Mode;
use oracle::simulation::spec::SpecPlanner;
use std::rc::Rc;

/// What a slot holds before a call: of whole numbers, and the bits of 42.0.
const WHOLE_BEFORE: u64 = 0xDEAD_BEEF;
const FLOAT_BEFORE: u64 = 0x4045_0000_0000_0000;

/// The longest buffer that a series is read into.
pub const MOST_SERIES: usize = 4_104;

/// The words of a case from which on no further plan is added, and of an answer.
const MANY_WORDS: usize = 20_000;
const MANY_ANSWERS: usize = 8_000;

/// Many plans in one call: how many, the first second, and by how much the worker's second number and
/// the second rise.
#[derive(Clone, Copy)]
pub struct Many {
    pub count: u64,
    pub second: u64,
    pub more: u64,
    pub step: u64,
}

pub struct Script {
    pub held: Held,
    input: Vec<u64>,
    answer: Vec<u64>,
    plans: u64,
    refused: u64,
    met: Met,
    /// What was set last: the registers, the world whose lists these are, and all lists.
    registers: Vec<u64>,
    mode: Mode,
    world: Option<Rc<World>>,
    lists: [Vec<u64>; 11],
    /// Which calls are made, and how many were asked for.
    kept: Kept,
    asked: usize,
}

impl Script {
    pub fn new() -> Script {
        Script::of(Kept::All)
    }

    /// The first call empties the storage; of the others those are made that are kept.
    pub fn of(kept: Kept) -> Script {
        let mut script = Script {
            held: Held::new(),
            input: Vec::new(),
            answer: Vec::new(),
            plans: 0,
            refused: 0,
            met: Met::default(),
            registers: vec![0; 21],
            mode: Mode::Default,
            world: None,
            lists: Default::default(),
            kept,
            asked: 0,
        };
        script.turn(b'f', &[]);
        script.answer.push(0);
        script
    }

    pub fn case(self, kind: u8) -> PlannerCase {
        let answer = [&[self.plans, self.refused], &self.answer[..]].concat();
        PlannerCase {
            case: WordCase::new(kind, self.input, answer),
            met: self.met,
            calls: self.asked,
        }
    }

    /// Whether the next call is made.
    fn is_next_kept(&mut self) -> bool {
        self.asked += 1;
        self.kept.has(self.asked - 1)
    }

    /// Whether it has as many words as a case should have.
    pub fn is_long(&self) -> bool {
        self.input.len() > MANY_WORDS || self.answer.len() > MANY_ANSWERS
    }

    fn turn(&mut self, letter: u8, words: &[u64]) {
        self.input
            .push(words.len() as u64 * 256 + u64::from(letter));
        self.input.extend(words);
    }

    fn set(&mut self, plan: &Plan) {
        self.set_world(&plan.world);
        self.set_list(9, &plan.draws);
        self.set_list(10, &plan.indices);
    }

    fn set_world(&mut self, world: &Rc<World>) {
        let registers = world.registers();
        let differ = |at: &usize| registers[*at] != self.registers[*at];
        let first = (0..registers.len()).find(differ);
        let last = (0..registers.len()).rfind(differ);
        if let (Some(first), Some(last)) = (first, last) {
            let words = [&[first as u64], &registers[first..=last]].concat();
            self.registers = registers;
            self.turn(b'r', &words);
        }
        if world.prices != self.mode {
            self.mode = world.prices;
            self.turn(b'r', &[MODE_REGISTER, self.mode as u64]);
        }
        let held = self.world.as_ref();
        if !held.is_some_and(|held| Rc::ptr_eq(held, world)) {
            for (number, list) in world.lists.iter().enumerate() {
                self.set_list(number, list);
            }
            self.world = Some(Rc::clone(world));
        }
    }

    fn set_list(&mut self, number: usize, list: &[u64]) {
        if self.lists[number] == list {
            return;
        }
        self.lists[number] = list.to_vec();
        let given = &list[..period(list)];
        let sizes = [number, list.len(), given.len()].map(|size| size as u64);
        self.turn(b'l', &[&sizes, given].concat());
    }

    pub fn plan(&mut self, plan: Plan) {
        if !self.is_next_kept() {
            return;
        }
        assert!(plan.storage <= WHOLE && plan.drafts.max(plan.commits) <= MOST_SLOTS);
        self.set(&plan);
        self.turn(b'p', &words(&plan, plan.end));
        let plan = Rc::new(plan);
        let before = self.held.record(plan.a, plan.b);
        let planned = self.held.plan(&plan);
        let stalled = before.is_some_and(|(_, _, stall)| stall > 0.0);
        self.met.count(&plan.world, &planned, stalled);
        self.plans += 1;
        self.put_planned(&plan, &planned);
    }

    fn put_planned(&mut self, plan: &Plan, planned: &Planned) {
        let none: &[u32] = &[];
        let (head, drafts, commits) = match planned {
            Planned::Plan {
                used,
                weighed,
                drafts,
                commits,
            } => ([0, 1, *used, *weighed, 1], &drafts[..], &commits[..]),
            Planned::Empty => ([0, 2, 0, 0, 0], none, none),
            Planned::Refused(number) => {
                self.refused += 1;
                ([*number, 0, 0, 0, 0], none, none)
            }
        };
        self.answer.extend(head);
        self.put_slots(drafts, plan.drafts);
        self.put_slots(commits, plan.commits);
    }

    /// What is written, and the slots behind it as they were.
    fn put_slots(&mut self, written: &[u32], slots: usize) {
        let end = self.answer.len() + slots;
        self.answer.extend(written.iter().map(|&n| u64::from(n)));
        self.answer.resize(end, WHOLE_BEFORE);
    }

    pub fn many(&mut self, plan: &Plan, many: Many) {
        if !self.is_next_kept() {
            return;
        }
        self.set(plan);
        let steps = [many.count, many.more, many.step];
        self.turn(b'm', &[&words(plan, many.second), &steps[..]].concat());
        let [mut refusal, mut accepted] = [0, 0];
        for turn in 0..many.count {
            let plan = Plan {
                b: plan.b + turn * many.more,
                end: end_in(many.second + turn * many.step),
                ..plan.clone()
            };
            match self.held.plan(&Rc::new(plan)) {
                Planned::Refused(number) => refusal = number,
                _ => accepted += 1,
            }
        }
        self.answer.extend([refusal, accepted]);
    }

    /// How long a width takes to settle.
    pub fn settles(&mut self, world: &Rc<World>, question: Question) {
        if !self.is_next_kept() {
            return;
        }
        let Question {
            width,
            target,
            slots,
        } = question;
        assert!(slots <= MOST_WIDTHS);
        self.set_world(world);
        self.turn(b's', &[width.into(), target.into(), slots as u64]);
        let settled = settled(world, question);
        assert_arrives(world, question, &settled);
        self.met.count_settling(world, question, &settled);
        let none: &[u32] = &[];
        let (head, widths) = match &settled {
            Settled::Refused(number) => ([*number, 0, 0, 0, 0], none),
            Settled::Within { rounds, widths } => {
                ([0, 1, *rounds, widths.len() as u64, 0], &widths[..])
            }
            Settled::AtOnce => ([0, 2, 0, 0, 0], none),
            Settled::NoStep(width) => ([0, 3, 0, 0, u64::from(*width)], none),
            Settled::NoCandidate(width) => ([0, 4, 0, 0, u64::from(*width)], none),
        };
        self.answer.extend(head);
        self.put_slots(widths, slots);
    }

    pub fn collect(&mut self, (a, b): (u64, u64)) {
        if !self.is_next_kept() {
            return;
        }
        self.turn(b'c', &[a, b]);
        let stall = self.held.collect(a, b);
        self.answer.extend([0, stall]);
    }

    pub fn withdraw(&mut self) {
        if !self.is_next_kept() {
            return;
        }
        self.turn(b'w', &[]);
        let refusal = self.held.withdraw();
        self.answer.push(refusal);
    }

    pub fn record(&mut self, (a, b): (u64, u64)) {
        if !self.is_next_kept() {
            return;
        }
        self.turn(b'k', &[a, b]);
        match self.held.record(a, b) {
            Some((width, rounds, stall)) => {
                let record = [width.into(), rounds.into(), stall.to_bits()];
                self.answer.extend([0, 1]);
                self.answer.extend(record);
            }
            None => self.answer.extend([0, 0]),
        }
    }

    pub fn counts(&mut self) {
        if !self.is_next_kept() {
            return;
        }
        self.turn(b'h', &[]);
        let counts = self.held.counts();
        self.answer.extend(counts.iter().flat_map(|&n| [0, n]));
    }

    pub fn figure(&mut self) {
        if !self.is_next_kept() {
            return;
        }
        self.turn(b'g', &[]);
        self.answer.extend([0, self.held.day_figure()]);
    }

    pub fn accepted(&mut self, draft: u32, commits: Option<u32>) {
        if !self.is_next_kept() {
            return;
        }
        let round = [commits.is_some().into(), commits.unwrap_or(0).into()];
        self.turn(b'a', &[u64::from(draft), round[0], round[1]]);
        self.answer
            .push(SpecPlanner::accepted(draft, commits).into());
    }

    /// The series in buffers of so many slots, as many of each as are written, and one more.
    pub fn series(&mut self, slots: usize) {
        if !self.is_next_kept() {
            return;
        }
        assert!(slots <= MOST_SERIES);
        self.turn(b'v', &[slots as u64]);
        let series = self.held.series();
        let committed = self.held.mean_committed();
        let count = if slots < series.len() {
            0
        } else {
            series.len()
        };
        let refusal = if slots < series.len() { 16 } else { 0 };
        self.answer.extend([refusal, count as u64]);
        let behind = usize::from(count < slots);
        let mut put = |words: Vec<u64>, before: u64| {
            self.answer.extend(&words[..count]);
            self.answer.extend(vec![before; behind]);
        };
        let samples = series.iter();
        put(samples.clone().map(|at| at.second).collect(), WHOLE_BEFORE);
        let means = samples.clone().map(|at| at.mean_draft.to_bits());
        put(means.collect(), FLOAT_BEFORE);
        let batches = samples.map(|at| at.mean_decode_batch.to_bits());
        put(batches.collect(), FLOAT_BEFORE);
        put(committed, FLOAT_BEFORE);
    }
}

/// The words of a plan behind its letter; `end` is the end time's bits, or the first of many seconds.
fn words(plan: &Plan, end: u64) -> Vec<u64> {
    let rooms = [plan.storage, plan.drafts, plan.commits].map(|room| room as u64);
    let who = [plan.a, plan.b, plan.sequences.into(), end];
    [who.to_vec(), rooms.to_vec()].concat()
}

/// The least number of first entries that make the list, taken in turn.
fn period(list: &[u64]) -> usize {
    // borders[n] is how long the longest beginning is that also ends the first n + 1 entries
    let mut borders = vec![0; list.len()];
    for at in 1..list.len() {
        let mut border: usize = borders[at - 1];
        while border > 0 && list[border] != list[at] {
            border = borders[border - 1];
        }
        borders[at] = border + usize::from(list[border] == list[at]);
    }
    list.len() - borders.last().copied().unwrap_or(0)
}

#[cfg(test)]
mod tests {
    use super::period;

    #[test]
    fn a_list_is_its_first_entries_in_turn() {
        assert_eq!(period(&[]), 0);
        assert_eq!(period(&[7]), 1);
        assert_eq!(period(&[7, 7, 7]), 1);
        assert_eq!(period(&[1, 2, 1, 2, 1]), 2);
        assert_eq!(period(&[1, 2, 3]), 3);
        assert_eq!(period(&[1, 1, 2, 1, 1]), 3);
    }
}
