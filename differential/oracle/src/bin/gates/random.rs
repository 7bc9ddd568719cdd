//! Random cases from a seed, without end.
use numbers::dice::Dice;
use numbers::word_case::WordCase;
use oracle::plans::batch::Asked;
use oracle::plans::batches::{self, Shape};
use oracle::plans::hole_patterns::{self, TURNS};
use oracle::plans::prices::put_holes;
use oracle::plans::verify_price::Mode;

/// The sentence that says the space.
pub fn space(seed: u64) -> String {
    format!(
        "space: random batches of up to 1,025 sequences and depths of up to 64 and past it, mostly few, \
         with chains of different lengths, equal survivals, zeros and minus zeros, a third of the \
         curves with holes, all kinds of drafters, values out of range and short room among them; half \
         of them in the bridged mode: half of these the patterns of holes up to depth 6 in turn, under \
         each kind of drafter and over 1 to 8 sequences, the others with holes in two thirds of their \
         curves; seed {seed}"
    )
}

/// As many ragged as block; each fourth case is the next pattern of holes, bridged.
pub fn cases(seed: u64) -> impl Iterator<Item = WordCase> {
    let mut dice = Dice::new(seed);
    let mut turn = dice.below(TURNS);
    let mut place = 0;
    std::iter::repeat_with(move || {
        place += 1;
        if place % 4 > 0 {
            return case(Shape::random, &mut dice);
        }
        turn += 1;
        let (batch, asked) = hole_patterns::batch(turn % TURNS, Mode::Bridged, &mut dice);
        batch.case(asked)
    })
}

/// A case of a batch of some shape; a third of them bridged, over more holes.
pub fn case(shape: fn(&mut Dice) -> Shape, dice: &mut Dice) -> WordCase {
    let mode = dice.pick(&[Mode::Default, Mode::Default, Mode::Bridged]);
    let asked = dice.pick(&[Asked::Ragged(mode), Asked::Block(mode)]);
    let mut batch = batches::random(shape(dice), asked, dice);
    if mode == Mode::Bridged && dice.once_in(2) {
        put_holes(&mut batch.curve, dice);
    }
    batch.case(asked)
}
