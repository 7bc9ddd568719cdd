//! A planner's workers, its clock, and the calls that are made of it.
use crate::script::{Script, MOST_SERIES};
use numbers::dice::Dice;
use oracle::clock::Clock;
use oracle::planners::plan::Plan;
use oracle::planners::questions::{question, set_switch};
use oracle::planners::world::{Policy, World, POLICIES};
use oracle::planners::worlds::{self, Shape};
use std::rc::Rc;

/// The workers and the clock of a planner, and what it is set to.
pub struct Scene {
    pub shape: Shape,
    pub world: Rc<World>,
    pub workers: Vec<(u64, u64)>,
    pub clock: Clock,
}

impl Scene {
    pub fn new(shape: Shape, policy: Policy, dice: &mut Dice) -> Scene {
        let count = dice.between(1, 4);
        Scene {
            shape,
            world: Rc::new(worlds::world(shape, policy, dice)),
            workers: (0..count).map(|_| worker(dice)).collect(),
            clock: Clock::draw(dice),
        }
    }

    /// The next plan; once in a while the settings are altered before it.
    pub fn plan(&mut self, dice: &mut Dice) -> Plan {
        if dice.once_in(16) {
            let other = dice.pick(&POLICIES);
            let policy = dice.pick(&[self.world.policy, other]);
            self.world = Rc::new(worlds::world(self.shape, policy, dice));
        }
        let most = self.shape.most;
        let n = match dice.below(32) {
            0 => 0,
            1 => most,
            _ => dice.between(1, most),
        };
        let worker = self.worker(dice);
        let world = Rc::clone(&self.world);
        self.plan_of(&world, n, worker, dice)
    }

    /// A plan of at least one sequence under other settings, for a worker.
    pub fn of(&mut self, world: &Rc<World>, worker: (u64, u64), dice: &mut Dice) -> Plan {
        let n = dice.between(1, self.shape.most);
        self.plan_of(world, n, worker, dice)
    }

    fn plan_of(
        &mut self,
        world: &Rc<World>,
        n: usize,
        (a, b): (u64, u64),
        dice: &mut Dice,
    ) -> Plan {
        let end = self.clock.next(dice);
        let plan = worlds::plan(world, n, dice);
        Plan { a, b, end, ..plan }
    }

    pub fn worker(&self, dice: &mut Dice) -> (u64, u64) {
        dice.pick(&self.workers)
    }

    /// One call of a planner.
    pub fn call(&mut self, script: &mut Script, dice: &mut Dice) {
        match dice.below(26) {
            0..=2 => script.withdraw(),
            3 | 4 => script.collect(self.worker(dice)),
            5 => script.record(self.worker(dice)),
            6 => script.figure(),
            7 => script.counts(),
            8 => self.read_series(script, dice),
            9 if dice.once_in(2) => {
                let some = dice.below(70) as u32;
                let commits = dice.pick(&[None, Some(some), Some(u32::MAX)]);
                script.accepted(dice.below(66) as u32, commits);
            }
            10 | 11 => self.ask(script, dice),
            _ => script.plan(self.plan(dice)),
        }
    }

    /// How long the width of one of the workers takes to settle, or any other.
    fn ask(&self, script: &mut Script, dice: &mut Dice) {
        let (a, b) = self.worker(dice);
        let held = script.held.record(a, b).map(|record| record.0);
        let mut world = (*self.world).clone();
        if dice.once_in(2) {
            set_switch(&mut world, dice);
        }
        let question = question(&world, held, dice);
        script.settles(&Rc::new(world), question);
    }

    fn read_series(&self, script: &mut Script, dice: &mut Dice) {
        let held = script.held.counts()[0] as usize;
        let slots = [held, held, held + 2, held.saturating_sub(1)];
        script.series(dice.pick(&slots).min(MOST_SERIES));
    }

    /// All that can be read at the end.
    pub fn read(&self, script: &mut Script) {
        script.counts();
        script.figure();
        let held = script.held.counts()[0] as usize;
        script.series(if held > 100 { 100 } else { held + 1 });
        for &worker in &self.workers {
            script.record(worker);
        }
    }
}

fn worker(dice: &mut Dice) -> (u64, u64) {
    let mut number = || match dice.below(8) {
        0 => dice.pick(&[u64::MAX, u64::MAX - 1, 1 << 63, 1 << 32]),
        1 => dice.bits(),
        _ => dice.below(4),
    };
    (number(), number())
}
