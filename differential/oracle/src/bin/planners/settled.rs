//! Planners whose widths settle. After any history a worker makes rounds of the same target, the same
//! candidates and the same switching, with other calls between them: after as many as are answered its
//! width has to be the target, and to stay so.
use crate::held::Held;
use crate::planner_case::PlannerCase;
use crate::scene::Scene;
use crate::script::Script;
use numbers::dice::Dice;
use oracle::planners::damages::damaged;
use oracle::planners::plan::{Plan, Planned};
use oracle::planners::questions::question;
use oracle::planners::settling::{pause, settled, Question, Settled};
use oracle::planners::world::{Policy, World, POLICIES};
use oracle::planners::worlds::{self, Shape};
use std::rc::Rc;

type Worker = (u64, u64);

/// The most rounds that a way is followed.
const MOST_ROUNDS: u64 = 40;

/// The most sequences of a plan on it.
const MOST_SEQUENCES: usize = 16;

/// How often settings are drawn for a way that is not over at once.
const TRIES: usize = 40;

/// A call of such a planner.
enum Turn {
    Plan(Plan),
    Collect(Worker),
    Withdraw,
    Record(Worker),
    Settles(Rc<World>, Question),
}

/// The turns of a planner, and the planner that they make: with all of them, whichever a case keeps.
struct Run {
    held: Held,
    turns: Vec<Turn>,
    /// The rounds that the way took, where it is gone.
    gone: Option<u64>,
}

impl Run {
    fn plan(&mut self, plan: Plan) -> Planned {
        self.turns.push(Turn::Plan(plan.clone()));
        self.held.plan(&Rc::new(plan))
    }

    fn collect(&mut self, worker: Worker) {
        self.turns.push(Turn::Collect(worker));
        self.held.collect(worker.0, worker.1);
    }

    fn withdraw(&mut self) {
        self.turns.push(Turn::Withdraw);
        self.held.withdraw();
    }

    /// How long a width takes to the end of a way.
    fn ask(&mut self, way: &Way, width: u32, dice: &mut Dice) -> Settled {
        let world = &way.plan.world;
        let asked = Question {
            width,
            target: way.target,
            ..question(world, None, dice)
        };
        self.turns.push(Turn::Settles(Rc::clone(world), asked));
        settled(world, asked)
    }

    /// The width and the counter of a worker that is held.
    fn record(&self, (a, b): Worker) -> Option<(u32, u32)> {
        let record = self.held.record(a, b);
        record.map(|(width, counter, _)| (width, counter))
    }

    fn play(self, mut script: Script, scene: &Scene) -> PlannerCase {
        for turn in self.turns {
            if script.is_long() {
                break;
            }
            match turn {
                Turn::Plan(plan) => script.plan(plan),
                Turn::Collect(worker) => script.collect(worker),
                Turn::Withdraw => script.withdraw(),
                Turn::Record(worker) => script.record(worker),
                Turn::Settles(world, question) => script.settles(&world, question),
            }
        }
        scene.read(&mut script);
        let mut case = script.case(b's');
        if let Some(rounds) = self.gone {
            case.met.count_way(rounds);
        }
        case
    }
}

/// The way of a worker: its rounds are plans like this one, which decides for the target.
struct Way {
    worker: Worker,
    plan: Plan,
    target: u32,
}

/// A planner of so many calls, and then rounds until a width is settled.
pub fn settling(script: Script, shape: Shape, history: usize, dice: &mut Dice) -> PlannerCase {
    let shape = Shape {
        is_full: false,
        most: shape.most.min(MOST_SEQUENCES),
        ..shape
    };
    let mut scene = Scene::new(shape, Policy::GatedAggregate, dice);
    let mut run = Run {
        held: Held::new(),
        turns: Vec::new(),
        gone: None,
    };
    for _ in 0..history {
        call(&mut run, &mut scene, dice);
    }
    let way = begin(&mut run, &mut scene, dice);
    let (width, _) = run.record(way.worker).expect("a worker that is held");
    match run.ask(&way, width, dice) {
        Settled::Within { rounds, widths } if rounds <= MOST_ROUNDS => {
            follow(&mut run, &way, rounds, &widths, &mut scene, dice)
        }
        _ => {}
    }
    run.play(script, &scene)
}

/// A call of the history.
fn call(run: &mut Run, scene: &mut Scene, dice: &mut Dice) {
    match dice.below(8) {
        0 => run.withdraw(),
        1 => run.collect(scene.worker(dice)),
        _ => {
            let plan = scene.plan(dice);
            run.plan(plan);
        }
    }
}

/// Settings under which a worker has a way to go, where a few tries find such; a worker without a record
/// makes its first decision under others.
fn begin(run: &mut Run, scene: &mut Scene, dice: &mut Dice) -> Way {
    let worker = scene.worker(dice);
    if run.record(worker).is_none() {
        run.plan(constrained(scene, worker, dice));
    }
    let (width, _) = run.record(worker).expect("a worker that is held");
    let mut way = Way::draw(scene, worker, dice);
    for _ in 0..TRIES {
        if way.is_walked(width) {
            break;
        }
        way = Way::draw(scene, worker, dice);
    }
    way
}

/// A plan that is not refused, and goes through switching.
fn constrained(scene: &mut Scene, worker: Worker, dice: &mut Dice) -> Plan {
    loop {
        let mut world = worlds::world(scene.shape, Policy::GatedAggregate, dice);
        constrain(&mut world, dice);
        let plan = scene.of(&Rc::new(world), worker, dice);
        if !Held::new().refuses(&plan) {
            return plan;
        }
    }
}

/// Switching that arrives, soon.
fn constrain(world: &mut World, dice: &mut Dice) {
    world.cooldown = dice.pick(&[0, 1, 2, 2, 3, 5]);
    world.max_step = dice.pick(&[None, Some(1), Some(1), Some(1), Some(2), Some(u32::MAX)]);
    let cost: f64 = dice.pick(&[0.1, 33.3, 3_600_000.0]);
    world.cost_ms = cost.to_bits();
}

/// What a plan decides for: a worker's first decision is its target.
fn target(plan: &Plan) -> u32 {
    let mut held = Held::new();
    held.plan(&Rc::new(plan.clone()));
    held.record(plan.a, plan.b).expect("a constrained plan").0
}

impl Way {
    fn draw(scene: &mut Scene, worker: Worker, dice: &mut Dice) -> Way {
        let plan = constrained(scene, worker, dice);
        let target = target(&plan);
        Way {
            worker,
            plan,
            target,
        }
    }

    /// Whether it takes more than a walk, and not too many rounds.
    fn is_walked(&self, width: u32) -> bool {
        let asked = Question {
            width,
            target: self.target,
            slots: 64,
        };
        match settled(&self.plan.world, asked) {
            Settled::Within { rounds, widths } => widths.len() > 1 && rounds <= MOST_ROUNDS,
            _ => false,
        }
    }

    /// A plan of the same target: another one under the same settings, where it decides alike.
    fn round(&self, scene: &mut Scene, dice: &mut Dice) -> Plan {
        let other = scene.of(&self.plan.world, self.worker, dice);
        if target(&other) == self.target {
            return other;
        }
        Plan {
            end: other.end,
            ..self.plan.clone()
        }
    }
}

/// The rounds that are answered, and two pauses more.
fn follow(
    run: &mut Run,
    way: &Way,
    rounds: u64,
    widths: &[u32],
    scene: &mut Scene,
    dice: &mut Dice,
) {
    let mut walks = 0;
    for round in 1..=rounds + 2 * pause(&way.plan.world) {
        for _ in 0..dice.pick(&[0, 0, 0, 1, 2]) {
            between(run, way, scene, dice);
        }
        let (before, _) = run.record(way.worker).expect("a worker that is held");
        let planned = run.plan(way.round(scene, dice));
        assert!(matches!(planned, Planned::Plan { .. }), "{planned:?}");
        let (width, counter) = run.record(way.worker).expect("a worker that is held");
        walks += usize::from(counter == 0);
        let walked = widths[..walks.min(widths.len())].last();
        assert_eq!(width, walked.copied().unwrap_or(before), "{widths:?}");
        if round >= rounds {
            assert_eq!(width, way.target, "{round} of {rounds} rounds");
        }
        if round == rounds || dice.once_in(4) {
            run.turns.push(Turn::Record(way.worker));
        }
    }
    run.gone = Some(rounds);
    run.ask(way, way.target, dice);
}

/// A call that is no round of the worker: it may stand anywhere on the way.
fn between(run: &mut Run, way: &Way, scene: &mut Scene, dice: &mut Dice) {
    let (a, b) = way.worker;
    match dice.below(6) {
        0 => run.collect(way.worker),
        1 => run.collect(scene.worker(dice)),
        2 => {
            let plan = way.round(scene, dice);
            let sequences = 0;
            run.plan(Plan { sequences, ..plan });
        }
        3 => {
            let plan = damaged(&way.round(scene, dice), dice);
            if run.held.refuses(&plan) {
                run.plan(plan);
            }
        }
        4 => {
            let policy = dice.pick(&POLICIES[..3]);
            let world = worlds::world(scene.shape, policy, dice);
            let plan = scene.of(&Rc::new(world), (a, b), dice);
            run.plan(plan);
        }
        _ => {
            let plan = scene.plan(dice);
            let other = if plan.b == b { b ^ 1 } else { plan.b };
            run.plan(Plan { b: other, ..plan });
        }
    }
}
