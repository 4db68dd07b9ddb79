//! Keys wrapped and opened: those that OpenSSL wrapped, with each bit changed, and random ones.

use embed::Rng;
use model::lines::unhex;
use model::numbers::{KEK, KEY, WRAPPED};
use model::status;
use model::wrap::{wrap_behind, INTEGRITY};

use crate::broken::Rule;
use crate::couriers::flipped;
use crate::hostile::random_kek;
use crate::pair::Difference;
use crate::universe::flip;
use crate::wrapper::{opened, Work, Wrapper};

const PUBLISHED: &str = include_str!("../../model/wrapped-keys.txt");

pub struct Wraps {
    pub wrapper: Wrapper,
    rng: Rng,
}

type Done = Result<(), Difference>;

impl Wraps {
    pub fn new(seed: u64, broken: Option<Rule>) -> Wraps {
        Wraps { wrapper: Wrapper::new(broken), rng: Rng::new(seed) }
    }

    pub fn run(&mut self) -> Done {
        for row in PUBLISHED.lines().filter(|row| !row.starts_with('#')) {
            let [kek, key, wrapped] = [0, 1, 2].map(|at| row.split(' ').nth(at).expect("three"));
            let [kek, key] = [kek, key].map(|digits| unhex(digits).try_into().expect("a key"));
            let wrapped = unhex(wrapped).try_into().expect("a wrapped key");
            self.published(&kek, &key, wrapped)?;
            self.each_bit(&kek, &key, wrapped)?;
        }
        Ok(())
    }

    /// One key: wrapped behind anything, opened, and once more when something was changed.
    pub fn step(&mut self) -> Done {
        let kek = random_kek(&mut self.rng);
        let mut bytes = [self.rng.byte(); WRAPPED];
        if !self.rng.once_in(16) {
            self.rng.fill(&mut bytes);
        }
        let (_, wrapped) = self.wrapper.call(Work::Wrap, &kek, &bytes)?;
        let key = bytes.last_chunk().expect("a key");
        self.opens(&kek, wrapped, opened(key))?;
        let (mut kek, mut changed) = (kek, wrapped);
        match self.rng.below(4) {
            0 => flip(&mut self.rng, &mut kek),
            1 => changed = wrap_behind(&kek, INTEGRITY ^ 1 << self.rng.below(64), key),
            2 => self.rng.fill(&mut changed),
            _ => flip(&mut self.rng, &mut changed),
        }
        self.wrapper.call(Work::Unwrap, &kek, &changed).map(|_| ())
    }

    fn published(&mut self, kek: &[u8; KEK], key: &[u8; KEY], wrapped: [u8; WRAPPED]) -> Done {
        for first in 0..=255 {
            let mut bytes = [first; WRAPPED];
            bytes[WRAPPED - KEY..].copy_from_slice(key);
            let (_, made) = self.wrapper.call(Work::Wrap, kek, &bytes)?;
            if made != wrapped {
                return Err(Difference(format!(
                    "another key than OpenSSL's, both alike: {made:02X?}"
                )));
            }
        }
        self.opens(kek, wrapped, opened(key))
    }

    /// Of the wrapped key, of the key-encryption key, and of the integrity value.
    fn each_bit(&mut self, kek: &[u8; KEK], key: &[u8; KEY], wrapped: [u8; WRAPPED]) -> Done {
        for bit in 0..8 * WRAPPED {
            self.wrapper.call(Work::Unwrap, kek, &flipped(wrapped, bit))?;
        }
        for bit in 0..8 * KEK {
            self.wrapper.call(Work::Unwrap, &flipped(*kek, bit), &wrapped)?;
        }
        for bit in 0..64 {
            let behind = wrap_behind(kek, INTEGRITY ^ 1 << bit, key);
            self.wrapper.call(Work::Unwrap, kek, &behind)?;
        }
        Ok(())
    }

    fn opens(&mut self, kek: &[u8; KEK], wrapped: [u8; WRAPPED], to: [u8; WRAPPED]) -> Done {
        let opened = self.wrapper.call(Work::Unwrap, kek, &wrapped)?;
        if opened == (status::DONE, to) {
            return Ok(());
        }
        Err(Difference(format!("wrapped and not opened to the same, both alike: {opened:02X?}")))
    }
}
