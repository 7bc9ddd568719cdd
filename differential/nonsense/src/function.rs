//! A function of a library, as the run calls it.
use crate::turn::Turn;
use numbers::dice::Dice;

pub trait Function {
    fn name(&self) -> &'static str;

    /// The numbers that it refuses with, each of which a long run has to meet.
    fn refuses(&self) -> &'static [u64];

    /// Draws what the calls of the next block share. Nothing else may pass from one block to the next.
    fn begin(&mut self, _dice: &mut Dice) {}

    /// Draws inputs, calls, and compares with the definition: see `Turn`.
    fn call(&mut self, turn: &mut Turn);
}

/// One whose calls share nothing but buffers.
struct Plain<Call> {
    name: &'static str,
    refuses: &'static [u64],
    call: Call,
}

impl<Call: FnMut(&mut Turn)> Function for Plain<Call> {
    fn name(&self) -> &'static str {
        self.name
    }

    fn refuses(&self) -> &'static [u64] {
        self.refuses
    }

    fn call(&mut self, turn: &mut Turn) {
        (self.call)(turn)
    }
}

pub fn plain(
    name: &'static str,
    refuses: &'static [u64],
    call: impl FnMut(&mut Turn) + 'static,
) -> Box<dyn Function> {
    Box::new(Plain {
        name,
        refuses,
        call,
    })
}
