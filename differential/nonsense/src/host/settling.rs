//! How long until a width settles.
use super::declared::*;
use super::plan_inputs::inputs;
use super::settings::drafter_of;
use crate::exported::widths::{drawn_switch, drawn_width, steps};
use crate::function::{plain, Function};
use crate::lent::Lent;
use crate::readings::settling::{Asked, Prices, Settling as Settled};
use crate::turn::{Mixture, Turn};
use oracle::costs::lent_table::LentTable;
use oracle::costs::switching::Switch;
use oracle::planners::world::{BATCHES, DEPTHS, ROOFLINE, SECONDS};

/// What is asked with and lent, floats by their bits.
struct Question {
    settings: Settings,
    ask: Ask,
    roofline: Vec<u64>,
    depths: Vec<u32>,
    batches: Vec<u32>,
    seconds: Vec<u64>,
    width: u32,
    target: u32,
    widths: Vec<u32>,
}

#[derive(Default)]
struct Buffers {
    roofline: Lent<u64>,
    depths: Lent<u32>,
    batches: Lent<u32>,
    seconds: Lent<u64>,
    widths: Lent<u32>,
}

pub fn functions() -> Vec<Box<dyn Function>> {
    let mut lent = Buffers::default();
    let call = move |turn: &mut Turn| {
        let mut question = drawn(turn);
        lent.lend(turn, &question);
        let answer = lent.settles(&question);
        let defined = question.settled();
        if let Ok(Settled::Within(_, widths)) = &defined {
            question.widths[..widths.len()].copy_from_slice(widths);
        }
        turn.shape = shape_of(&defined, question.ask.source);
        turn.refusal = defined.as_ref().err().copied().unwrap_or(0);
        turn.answer(answer, told(&defined));
        lent.left(turn, &question);
    };
    vec![plain("latchmeander_settles", &[11, 12, 15, 16], call)]
}

/// The settings and the prices of a plan, and a width on its way among them.
fn drawn(turn: &mut Turn) -> Question {
    let mut inputs = inputs(&[], turn.mixture, &mut turn.dice);
    let switch = drawn_switch(turn);
    let is_good = switch.refusal() == 0 || turn.mixture != Mixture::Good;
    if is_good && turn.dice.once_in(2) {
        let settings = &mut inputs.settings;
        settings.cooldown_rounds = switch.cooldown_rounds;
        settings.cost_ms = f64::from_bits(switch.cost_ms);
        (settings.steps, settings.max_step) = steps(switch, turn);
    }
    let wholes = |list: usize| inputs.lists[list].iter().map(|&n| n as u32).collect();
    Question {
        settings: inputs.settings,
        ask: inputs.ask,
        roofline: inputs.lists[ROOFLINE].clone(),
        depths: wholes(DEPTHS),
        batches: wholes(BATCHES),
        seconds: inputs.lists[SECONDS].clone(),
        width: width(turn, inputs.settings.gamma),
        target: width(turn, inputs.settings.gamma),
        widths: slots(turn),
    }
}

/// One that may be a candidate, or any.
fn width(turn: &mut Turn, gamma: u32) -> u32 {
    match turn.dice.below(4) {
        0 if turn.mixture == Mixture::Good => turn.dice.below(65) as u32,
        0 => drawn_width(turn),
        _ => turn.dice.below(u64::from(gamma.min(64)) + 1) as u32,
    }
}

/// Slots for widths, which hold anything.
fn slots(turn: &mut Turn) -> Vec<u32> {
    let enough = turn.dice.pick(&[64, 64, 65, 80]);
    let len = match turn.mixture {
        Mixture::Good => enough,
        _ => turn.dice.pick(&[enough, enough, enough, 63, 1, 0]),
    };
    (0..len).map(|_| turn.dice.bits() as u32).collect()
}

impl Question {
    /// By the second reading; 12 where a number stands for no case.
    fn settled(&self) -> Result<Settled, u64> {
        let (settings, ask) = (&self.settings, &self.ask);
        if drafter_of(settings).is_none() || ask.source > 1 {
            return Err(12);
        }
        let table = || LentTable {
            rows: ask.rows as u64,
            depths: self.depths.clone(),
            batches: self.batches.clone(),
            seconds: self.seconds.clone(),
        };
        let asked = Asked {
            gamma: settings.gamma,
            bank: (settings.model == 2).then_some(ask.depth),
            switch: Switch {
                cooldown_rounds: settings.cooldown_rounds,
                max_step: (settings.steps == 1).then_some(settings.max_step),
                cost_ms: settings.cost_ms.to_bits(),
            },
            prices: match ask.source {
                0 => Prices::Roofline(self.roofline.clone()),
                _ => Prices::Table(table()),
            },
            width: self.width,
            target: self.target,
            room: self.widths.len(),
        };
        asked.settled()
    }
}

/// The numbers that are answered.
fn told(defined: &Result<Settled, u64>) -> Settling {
    let none = Settling::default();
    let stays = |settles, width: u32| Settling {
        settles,
        width: width.into(),
        ..none
    };
    match defined {
        Ok(Settled::Within(rounds, widths)) => Settling {
            settles: 1,
            rounds: *rounds,
            walks: widths.len() as u64,
            ..none
        },
        Ok(Settled::AtOnce) => stays(2, 0),
        Ok(Settled::NoStep(width)) => stays(3, *width),
        Ok(Settled::NoCandidate(width)) => stays(4, *width),
        Err(refusal) => Settling {
            refusal: *refusal,
            ..none
        },
    }
}

fn shape_of(defined: &Result<Settled, u64>, source: u32) -> Option<&'static str> {
    Some(match (defined.as_ref().ok()?, source) {
        (Settled::Within(_, widths), 0) if widths.len() > 1 => "roofline, many walks",
        (Settled::Within(..), 0) => "roofline, one walk",
        (Settled::Within(_, widths), _) if widths.len() > 1 => "table, many walks",
        (Settled::Within(..), _) => "table, one walk",
        (Settled::AtOnce, _) => "at once",
        (Settled::NoStep(_), _) => "no step",
        (Settled::NoCandidate(_), _) => "no candidate",
    })
}

impl Buffers {
    fn lend(&mut self, turn: &mut Turn, question: &Question) {
        turn.tell("settings", question.settings);
        turn.tell("ask", question.ask);
        turn.tell("width, target", (question.width, question.target));
        turn.lend("roofline", &mut self.roofline, &question.roofline);
        turn.lend("depths", &mut self.depths, &question.depths);
        turn.lend("batches", &mut self.batches, &question.batches);
        turn.lend("seconds", &mut self.seconds, &question.seconds);
        turn.lend("widths", &mut self.widths, &question.widths);
    }

    fn settles(&mut self, question: &Question) -> Settling {
        // SAFETY: the buffers are lent whole and apart.
        unsafe {
            latchmeander_settles(
                question.settings,
                question.ask,
                self.roofline.floats(),
                self.roofline.len(),
                self.depths.at(),
                self.depths.len(),
                self.batches.at(),
                self.batches.len(),
                self.seconds.floats(),
                self.seconds.len(),
                question.width,
                question.target,
                self.widths.at_mut(),
                self.widths.len(),
            )
        }
    }

    fn left(&self, turn: &mut Turn, question: &Question) {
        turn.left("roofline", &self.roofline, &question.roofline);
        turn.left("depths", &self.depths, &question.depths);
        turn.left("batches", &self.batches, &question.batches);
        turn.left("seconds", &self.seconds, &question.seconds);
        turn.left("widths", &self.widths, &question.widths);
    }
}
