//! The other side of the cable: what it sends next, and what goes wrong with a call.

use embed::Rng;
use model::numbers::{DISCOVERY_ROOM, IMAGE, STORE};
use model::status;

use crate::arena::Lengths;
use crate::hostile::{
    damage_image, damage_line, damage_marks, random_kek, random_state, to_digits,
};
use crate::oracle::{Function, Outcome};
use crate::pair::{Difference, Pair};
use crate::universe::frame;

/// How far from the right length a wrong one is, mostly.
pub const NEAR: usize = 40;
/// What an output has at most beyond what its lines need.
pub const SPARE: usize = DISCOVERY_ROOM + NEAR;

pub struct Host {
    pub rng: Rng,
    frame: Vec<u8>,
    line: Vec<u8>,
    /// Calls until the drive is started anew, or gets a state that it was not walked to.
    left: usize,
}

impl Host {
    pub fn new(seed: u64) -> Host {
        Host { rng: Rng::new(seed), frame: Vec::new(), line: Vec::new(), left: 0 }
    }

    pub fn line(&mut self, image: &[u8]) -> &[u8] {
        frame(&mut self.rng, image, &mut self.frame);
        to_digits(&self.frame, &mut self.line);
        if self.rng.once_in(8) {
            damage_line(&mut self.rng, &mut self.line);
        }
        &self.line
    }

    /// An output for lines that need so much: too short, exact or longer.
    pub fn room(&mut self, need: usize) -> usize {
        match self.rng.below(64) {
            0 => self.rng.below(need + 1),
            1 => need.saturating_sub(1),
            2 => need + self.rng.below(SPARE),
            3..=31 => need + self.rng.below(NEAR),
            _ => need,
        }
    }

    /// Throws the drive somewhere else when its walk is over.
    pub fn before(&mut self, pair: &mut Pair) -> Result<(), Difference> {
        if self.left > 0 {
            self.left -= 1;
            return Ok(());
        }
        self.left = 100 + self.rng.below(3000);
        if self.rng.once_in(2) {
            pair.change(|image, marks| random_state(&mut self.rng, image, marks));
            return Ok(());
        }
        let image = if self.rng.once_in(4) { self.wrong(IMAGE) } else { IMAGE };
        let marks = if self.rng.once_in(4) { self.wrong(STORE) } else { STORE };
        pair.start(image, marks, &random_kek(&mut self.rng))?;
        pair.start(IMAGE, STORE, &random_kek(&mut self.rng)).map(|_| ())
    }

    pub fn call(
        &mut self,
        pair: &mut Pair,
        function: Function,
        lengths: Lengths,
    ) -> Result<Outcome, Difference> {
        match self.rng.below(64) {
            0 => pair.call(function, Lengths { marks: self.wrong(STORE), ..lengths }),
            1 => pair.call(function, Lengths { image: self.wrong(IMAGE), ..lengths }),
            2 => {
                let (image, marks) = (self.wrong(IMAGE), self.wrong(STORE));
                pair.call(function, Lengths { image, marks, ..lengths })
            }
            3 => self.call_damaged(pair, function, lengths),
            4 => {
                pair.change(|_, marks| damage_marks(&mut self.rng, marks));
                pair.call(function, lengths)
            }
            _ => pair.call(function, lengths),
        }
    }

    /// The walk goes on with the damage if the drive took it for a state, and else without.
    fn call_damaged(
        &mut self,
        pair: &mut Pair,
        function: Function,
        lengths: Lengths,
    ) -> Result<Outcome, Difference> {
        let before = pair.save();
        pair.change(|image, _| damage_image(&mut self.rng, image));
        let outcome = pair.call(function, lengths)?;
        if [status::UNSOUND, status::OUTPUT].contains(&outcome.number) {
            pair.restore(&before);
        }
        Ok(outcome)
    }

    fn wrong(&mut self, right: usize) -> usize {
        match self.rng.below(8) {
            0 => 0,
            1 => self.rng.below(right),
            2..=4 => right - 1 - self.rng.below(NEAR),
            _ => right + 1 + self.rng.below(NEAR),
        }
    }
}
