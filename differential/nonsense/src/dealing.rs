//! Deals calls over functions: a block of each in turn, and each call from dice of its own, so that one
//! can be made again.
use crate::ending;
use crate::function::Function;
use crate::tally::Tally;
use crate::turn::Turn;
use numbers::dice::Dice;

/// The calls of a block.
pub const BLOCK: u64 = 64;

/// A function, where its calls have got to, and what they met.
pub struct Dealt {
    pub function: Box<dyn Function>,
    pub tally: Tally,
    repeat: &'static str,
    seed: u64,
}

/// A call that is not as it is defined.
pub struct Differing {
    pub turn: Turn,
    pub repeat: String,
}

impl Dealt {
    pub fn new(function: Box<dyn Function>, seed: u64, calls: u64) -> Dealt {
        let name = function.name();
        let repeat = format!("differential/run nonsense {seed} {calls} {name} ");
        // FNV-1a over the name: functions do not share their dice
        let named = name.bytes().fold(0xcbf2_9ce4_8422_2325, |sum: u64, byte| {
            (sum ^ u64::from(byte)).wrapping_mul(0x100_0000_01b3)
        });
        Dealt {
            function,
            tally: Tally::default(),
            repeat: repeat.leak(),
            seed: Dice::new(seed).bits() ^ named,
        }
    }

    fn dice(&self, salt: u64, place: u64) -> Dice {
        let mut dice = Dice::new(self.seed ^ salt);
        let first = dice.bits();
        Dice::new(Dice::new(first ^ place).bits())
    }

    fn begin(&mut self, place: u64) {
        ending::block(self.repeat);
        let mut dice = self.dice(u64::MAX, place / BLOCK);
        ending::place(place);
        self.function.begin(&mut dice);
    }

    fn turn(&mut self, place: u64, has_account: bool) -> Turn {
        ending::place(place);
        let mut turn = Turn::new(self.dice(0, place), has_account);
        self.function.call(&mut turn);
        turn
    }

    /// The next block, or as many of its calls as are left; the first that differs.
    pub fn block(&mut self, most: u64) -> Result<(), Box<Differing>> {
        let first = self.tally.calls;
        self.begin(first);
        for place in first..first + most.min(BLOCK) {
            let turn = self.turn(place, false);
            self.tally.count(&turn);
            if !turn.differences.is_empty() {
                let account = self.again(place).turn.account;
                let repeat = format!("{}{place}", self.repeat);
                let turn = Turn { account, ..turn };
                return Err(Box::new(Differing { turn, repeat }));
            }
        }
        Ok(())
    }

    /// One call again, with an account of its inputs: its block is begun and gone through up to it.
    pub fn again(&mut self, place: u64) -> Box<Differing> {
        let first = place - place % BLOCK;
        self.begin(first);
        for before in first..place {
            self.turn(before, false);
        }
        let turn = self.turn(place, true);
        let repeat = format!("{}{place}", self.repeat);
        Box::new(Differing { turn, repeat })
    }
}

#[cfg(test)]
mod tests {
    use super::*;
    use std::cell::RefCell;
    use std::rc::Rc;

    /// Hands on what its calls draw; its blocks draw a number that each call counts up.
    struct Counting {
        from: u64,
        drawn: Rc<RefCell<Vec<u64>>>,
    }

    impl Function for Counting {
        fn name(&self) -> &'static str {
            "counting"
        }

        fn refuses(&self) -> &'static [u64] {
            &[]
        }

        fn begin(&mut self, dice: &mut Dice) {
            self.from = dice.below(1000);
        }

        fn call(&mut self, turn: &mut Turn) {
            self.from += 1;
            self.drawn
                .borrow_mut()
                .push(self.from * 1000 + turn.dice.below(1000));
        }
    }

    #[test]
    fn a_call_can_be_made_again() {
        let drawn = Rc::new(RefCell::new(Vec::new()));
        let counting = Counting {
            from: 0,
            drawn: Rc::clone(&drawn),
        };
        let mut dealt = Dealt::new(Box::new(counting), 7, 200);
        for _ in 0..3 {
            assert!(dealt.block(BLOCK).is_ok());
        }
        let all = drawn.borrow().clone();
        for place in [0, 63, 64, 130] {
            dealt.again(place);
            assert_eq!(drawn.borrow().last(), Some(&all[place as usize]));
        }
    }
}
