//! An acceptance model with the numbers that a case asks it with, and the rules' answers.

const MOST_POSITIONS: usize = 64;
const MOST_GAMMA: u32 = 64;
const ONE: u64 = 0x3ff0_0000_0000_0000;

#[derive(Clone, Copy, Debug, PartialEq, Eq, Hash)]
pub enum Kind {
    Constant,
    PerPosition,
    Trace,
}

pub const KINDS: [Kind; 3] = [Kind::Constant, Kind::PerPosition, Kind::Trace];

/// Floats by their bits, any pattern.
#[derive(Clone, Debug, PartialEq, Eq, Hash)]
pub struct Model {
    pub kind: Kind,
    /// Of use to Constant alone.
    pub alpha: u64,
    pub gamma: u32,
    /// They stand beside every kind, and are judged under every kind.
    pub positions: Vec<u64>,
    pub draws: Vec<u64>,
}

/// How many drafts were accepted, and how many draws that took.
#[derive(Clone, Copy, Debug, PartialEq, Eq)]
pub struct Sample {
    pub commits: u32,
    pub used: usize,
}

impl Model {
    /// The expected number of accepted drafts, as bits, or the refusal's number.
    pub fn expected(&self) -> Result<u64, u8> {
        self.judged()?;
        let (mut product, mut sum) = (1.0, 0.0);
        for position in 0..self.gamma as usize {
            product *= f64::from_bits(self.value(position));
            sum += product;
        }
        Ok(f64::to_bits(sum))
    }

    /// Draws are consumed until one is not below its position's value, or until gamma are used.
    pub fn sample(&self) -> Result<Sample, u8> {
        self.judged()?;
        for position in 0..self.gamma as usize {
            let draw = *self.draws.get(position).ok_or(13)?;
            // a clear sign bit and below one; bits of such floats are in the floats' order
            if draw >= ONE {
                return Err(14);
            }
            if draw >= self.value(position) {
                return Ok(Sample {
                    commits: position as u32,
                    used: position + 1,
                });
            }
        }
        Ok(Sample {
            commits: self.gamma,
            used: self.gamma as usize,
        })
    }

    /// 12 for the model and the positions, then 11 for gamma.
    fn judged(&self) -> Result<(), u8> {
        let alpha_is_wrong = self.kind == Kind::Constant && !is_chance(self.alpha);
        let positions_are_wrong = !self.positions.iter().all(|&value| is_chance(value));
        if alpha_is_wrong || positions_are_wrong || self.positions.len() > MOST_POSITIONS {
            return Err(12);
        }
        if self.gamma > MOST_GAMMA {
            return Err(11);
        }
        Ok(())
    }

    /// The bits of the value of a position.
    pub fn value(&self, position: usize) -> u64 {
        match self.kind {
            Kind::Constant => self.alpha,
            Kind::PerPosition => self.positions.get(position).copied().unwrap_or(0),
            Kind::Trace => 0,
        }
    }

    /// What a case writes of it.
    pub fn words(&self) -> Vec<u64> {
        let words = self.words_with(u64::from(self.gamma));
        let draws = [self.draws.len() as u64];
        [&words[..], &draws, &self.draws].concat()
    }

    /// What a case writes that asks it with one number alone: gamma, or a position.
    pub fn words_with(&self, number: u64) -> Vec<u64> {
        let positions = self.positions.len() as u64;
        let head = [self.kind as u64, self.alpha, number, positions];
        [&head, &self.positions[..]].concat()
    }
}

/// Whether the float is 0 to 1: its bits are at most those of 1, and those of minus zero, of
/// anything below and of a NaN are above.
fn is_chance(bits: u64) -> bool {
    bits <= ONE
}

#[cfg(test)]
mod tests {
    use super::*;

    fn model(kind: Kind, gamma: u32, positions: &[f64], draws: &[f64]) -> Model {
        let bits = |floats: &[f64]| floats.iter().map(|x| x.to_bits()).collect();
        Model {
            kind,
            alpha: 0.5f64.to_bits(),
            gamma,
            positions: bits(positions),
            draws: bits(draws),
        }
    }

    fn sample(model: Model) -> Result<(u32, usize), u8> {
        model.sample().map(|sample| (sample.commits, sample.used))
    }

    #[test]
    fn draws_are_used_up_to_the_first_that_is_not_below() {
        let constant = |draws| sample(model(Kind::Constant, 2, &[], draws));
        assert_eq!(constant(&[0.25, 0.25, 7.0]), Ok((2, 2)));
        assert_eq!(constant(&[0.25, 0.5]), Ok((1, 2)));
        assert_eq!(constant(&[0.75, f64::NAN]), Ok((0, 1)));
        assert_eq!(constant(&[0.25]), Err(13));
        assert_eq!(constant(&[0.25, 1.0]), Err(14));
        assert_eq!(constant(&[-0.0]), Err(14));
        assert_eq!(constant(&[f64::NAN]), Err(14));
        let positions = |draws| sample(model(Kind::PerPosition, 3, &[1.0], draws));
        assert_eq!(positions(&[0.875, 0.0]), Ok((1, 2)));
        assert_eq!(sample(model(Kind::Trace, 1, &[1.0], &[0.0])), Ok((0, 1)));
        assert_eq!(sample(model(Kind::Trace, 0, &[1.0], &[])), Ok((0, 0)));
    }

    #[test]
    fn expected_values() {
        let of = |kind, gamma, positions| model(kind, gamma, positions, &[]).expected();
        assert_eq!(of(Kind::Constant, 2, &[]), Ok(0.75f64.to_bits()));
        assert_eq!(of(Kind::PerPosition, 64, &[1.0, 0.5]), Ok(1.5f64.to_bits()));
        assert_eq!(of(Kind::Trace, 64, &[1.0]), Ok(0));
    }

    #[test]
    fn settings_are_judged_before_gamma_and_under_every_kind() {
        for kind in KINDS {
            let of = |gamma, positions| model(kind, gamma, positions, &[]).expected().err();
            assert_eq!(of(65, &[-0.0]), Some(12));
            assert_eq!(of(64, &[f64::NAN]), Some(12));
            assert_eq!(of(64, &[0.0; 65]), Some(12));
            assert_eq!(of(65, &[0.0; 64]), Some(11));
            assert_eq!(of(64, &[1.0; 64]), None);
        }
        let above = 1.0f64.to_bits() + 1;
        let with_alpha = |kind| Model {
            alpha: above,
            ..model(kind, 1, &[], &[])
        };
        assert_eq!(with_alpha(Kind::Constant).expected(), Err(12));
        assert_eq!(with_alpha(Kind::PerPosition).expected(), Ok(0));
    }
}
