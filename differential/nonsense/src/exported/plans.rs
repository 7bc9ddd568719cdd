//! `settings` and `asking`: what of a plan is refused before anything is drawn.
use crate::exported::{compare, Refusal};
use crate::function::{plain, Function};
use crate::host::declared::{Ask, Settings};
use crate::host::plan_inputs::{inputs, Inputs};
use crate::host::plans::{lend_lists, Buffers, Words};
use crate::host::settings::world_of;
use crate::host::storages::Storages;
use crate::ledger::layout::ROOM;
use crate::lent::Lent;
use crate::turn::Turn;
use numbers::dice::Dice;
use oracle::planners::judge::{asked, is_set};
use oracle::planners::world::{World, POSITIONS};

// Of each list the address of a lent buffer and its length.
unsafe extern "C" {
    fn settings_settings_refusal(
        settings: Settings,
        positions: *const f64,
        positions_len: usize,
    ) -> Refusal;
    safe fn settings_gamma_in(settings: Settings, depth: u32) -> u32;
    fn asking_asked_refusal(
        settings: Settings,
        ask: Ask,
        positions: *const f64,
        positions_len: usize,
        roofline: *const f64,
        roofline_len: usize,
        depths: *const u32,
        depths_len: usize,
        batches: *const u32,
        batches_len: usize,
        seconds: *const f64,
        seconds_len: usize,
        loaded: *const f64,
        loaded_len: usize,
        bank_commits: *const u32,
        bank_commits_len: usize,
        signals: *const f64,
        signals_len: usize,
        bank_curve: *const f64,
        bank_curve_len: usize,
        draws: *const f64,
        draws_len: usize,
        indices: *const u32,
        indices_len: usize,
        storage: *const u64,
        storage_len: usize,
        drafts: usize,
        commits: usize,
    ) -> Refusal;
}

pub fn functions() -> Vec<Box<dyn Function>> {
    let asked_refusal = AskedRefusal {
        storages: Storages::none(),
        lent: Buffers::default(),
    };
    vec![settings_refusal(), gamma_in(), Box::new(asked_refusal)]
}

/// What the inputs stand for: a number that stands for no case is taken for the last one.
fn world(inputs: &Inputs) -> World {
    let (mut settings, mut ask) = (inputs.settings, inputs.ask);
    settings.policy = settings.policy.min(3);
    settings.model = settings.model.min(2);
    settings.drafter = settings.drafter.min(2);
    settings.steps = settings.steps.min(1);
    settings.prices = settings.prices.min(1);
    ask.source = ask.source.min(1);
    world_of(&settings, &ask, inputs.lists.clone()).expect("numbers that stand for cases")
}

fn drawn(words: &[u64], turn: &mut Turn) -> Inputs {
    inputs(words, turn.mixture, &mut turn.dice)
}

fn settings_refusal() -> Box<dyn Function> {
    let mut lent = Lent::new();
    plain("settings_settings_refusal", &[12], move |turn| {
        let inputs = drawn(&[], turn);
        let positions = &inputs.lists[POSITIONS];
        turn.tell("settings", inputs.settings);
        turn.lend("positions", &mut lent, positions);
        // SAFETY: the address is that of a lent buffer with so many elements.
        let answered =
            unsafe { settings_settings_refusal(inputs.settings, lent.floats(), lent.len()) };
        let refusal = if is_set(&world(&inputs)) { 0 } else { 12 };
        compare(turn, answered, Refusal(refusal));
        turn.left("positions", &lent, positions);
    })
}

fn gamma_in() -> Box<dyn Function> {
    plain("settings_gamma_in", &[], |turn| {
        let inputs = drawn(&[], turn);
        turn.tell("settings", inputs.settings);
        turn.tell("depth", inputs.ask.depth);
        let answered = settings_gamma_in(inputs.settings, inputs.ask.depth);
        compare(turn, answered, world(&inputs).capped());
    })
}

struct AskedRefusal {
    storages: Storages,
    lent: Buffers,
}

impl Function for AskedRefusal {
    fn name(&self) -> &'static str {
        "asking_asked_refusal"
    }

    fn refuses(&self) -> &'static [u64] {
        &[11, 15, 16]
    }

    fn begin(&mut self, dice: &mut Dice) {
        self.storages = Storages::draw(dice);
    }

    fn call(&mut self, turn: &mut Turn) {
        let lent = &mut self.lent;
        let words = self.storages.of(turn.mixture, &mut turn.dice);
        let inputs = drawn(words, turn);
        let len = match inputs.storage {
            0..ROOM => inputs.storage,
            _ => words.len(),
        };
        let words = &words[..len];
        turn.tell("settings", inputs.settings);
        turn.tell("ask", inputs.ask);
        turn.tell("drafts and commits", (inputs.drafts, inputs.commits));
        turn.lend("storage", &mut lent.storage, words);
        let wholes = lend_lists(turn, &inputs, &mut lent.floats, &mut lent.wholes);
        let answered = refused(lent, &inputs);
        let rooms = [words.len(), inputs.drafts, inputs.commits];
        let plan = inputs.plan(world(&inputs), rooms);
        compare(turn, answered, Refusal(asked(&plan, &Words(words))));
        turn.left("storage", &lent.storage, words);
        lent.lists_left(turn, &inputs, &wholes);
    }
}

fn refused(lent: &Buffers, inputs: &Inputs) -> Refusal {
    let [positions, roofline, seconds, loaded, signals, curve, draws] = &lent.floats;
    let [depths, batches, commits, indices] = &lent.wholes;
    // SAFETY: the buffers are lent whole and apart.
    unsafe {
        asking_asked_refusal(
            inputs.settings,
            inputs.ask,
            positions.floats(),
            positions.len(),
            roofline.floats(),
            roofline.len(),
            depths.at(),
            depths.len(),
            batches.at(),
            batches.len(),
            seconds.floats(),
            seconds.len(),
            loaded.floats(),
            loaded.len(),
            commits.at(),
            commits.len(),
            signals.floats(),
            signals.len(),
            curve.floats(),
            curve.len(),
            draws.floats(),
            draws.len(),
            indices.at(),
            indices.len(),
            lent.storage.at(),
            lent.storage.len(),
            inputs.drafts,
            inputs.commits,
        )
    }
}
