//! `gates`: which slots of the drafts are worth their price.
use crate::drawn::batches::batch;
use crate::drawn::drafters::Crossing;
use crate::exported::batches::{rates, Buffers};
use crate::exported::{compare, exported_twice, Told};
use crate::function::{plain, Function};
use crate::lent::Lent;
use numbers::dice::Dice;
use oracle::plans::batch::Batch;
use oracle::plans::gate::{Chosen, Gate};
use oracle::plans::verify_price::Mode;

// Of each list the address of a lent buffer and its length.
exported_twice!(Gating: gates_ragged, gates_block(
    chains: *const f64,
    chains_len: usize,
    lengths: *const u32,
    lengths_len: usize,
    curve: *const f64,
    curve_len: usize,
    gamma: u32,
    mode: u32,
    kind: u32,
    p: f64,
    q: f64,
    x: u32,
    y: u32,
    z: u32,
    peak: f64,
    bw: f64,
    kv_delta: f64,
    loaded: *const f64,
    loaded_len: usize,
    widths: *mut u32,
    widths_len: usize
) -> Told);

pub fn functions() -> Vec<Box<dyn Function>> {
    vec![
        gate("gates_ragged", gates_ragged, |gate| gate.ragged()),
        gate("gates_block", gates_block, |gate| gate.block()),
    ]
}

/// What was met of a gate.
fn met(mode: Mode, chosen: &Result<Chosen, u8>) -> Option<&'static str> {
    let chosen = chosen.as_ref().ok()?;
    let has_drafts = chosen.widths.iter().any(|&width| width > 0);
    Some(match (mode, chosen.weighed, has_drafts) {
        (Mode::Default, 0, _) => "nothing weighed",
        (Mode::Default, _, true) => "slots kept",
        (Mode::Default, _, false) => "no slot kept",
        (Mode::Bridged, 0, true) => "bridged all drafted unweighed",
        (Mode::Bridged, 0, false) => "bridged nothing weighed",
        (Mode::Bridged, _, true) => "bridged slots kept",
        (Mode::Bridged, _, false) => "bridged no slot kept",
    })
}

/// The mode as it crosses: 0 is the default, any other number bridged.
fn drawn_mode(dice: &mut Dice) -> (u32, Mode) {
    let any = dice.bits() as u32;
    match dice.pick(&[0, 0, 0, 1, 1, 2, u32::MAX, any]) {
        0 => (0, Mode::Default),
        number => (number, Mode::Bridged),
    }
}

/// What a gate answers over the buffers; the widths are written.
fn gated(
    call: Gating,
    batch: &Batch,
    mode: u32,
    c: Crossing,
    lent: &Buffers,
    widths: &mut Lent<u32>,
) -> Told {
    let [peak, bw, kv_delta] = rates(batch);
    let Buffers {
        chains,
        lengths,
        curve,
        loaded,
    } = lent;
    // SAFETY: each address is that of a lent buffer with so many elements.
    unsafe {
        call(
            chains.floats(),
            chains.len(),
            lengths.at(),
            lengths.len(),
            curve.floats(),
            curve.len(),
            batch.gamma,
            mode,
            c.kind,
            c.p,
            c.q,
            c.x,
            c.y,
            c.z,
            peak,
            bw,
            kv_delta,
            loaded.floats(),
            loaded.len(),
            widths.at_mut(),
            widths.len(),
        )
    }
}

fn gate(name: &'static str, call: Gating, choose: fn(&Gate) -> Chosen) -> Box<dyn Function> {
    let (mut lent, mut widths) = (Buffers::default(), Lent::new());
    plain(name, &[11, 12, 15, 16], move |turn| {
        let batch = batch(|batch| batch.n(), turn);
        let crossing = Crossing::of(batch.drafter, &mut turn.dice);
        let (number, mode) = drawn_mode(&mut turn.dice);
        let mut left: Vec<u32> = (0..batch.room).map(|_| turn.dice.bits() as u32).collect();
        turn.tell("mode", number);
        lent.lend(&batch, turn);
        turn.lend("widths", &mut widths, &left);
        let answered = gated(call, &batch, number, crossing, &lent, &mut widths);
        let chosen = batch.chosen(mode, choose);
        turn.shape = met(mode, &chosen);
        if let Ok(chosen) = &chosen {
            left[..chosen.widths.len()].copy_from_slice(&chosen.widths);
        }
        let weighed = chosen.map(|chosen| chosen.weighed);
        compare(turn, answered, Told::one(weighed));
        turn.left("widths", &widths, &left);
        lent.left(&batch, turn);
    })
}
