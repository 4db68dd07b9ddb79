//! What a drive with a wrong rule makes of a wrapped load.

use model::aes;
use model::lines::{clear_one, hex, load_key, wrapped_frame};
use model::numbers::{HEAD, KEY, PROGRAM_KEK, SLOT, WRAPPED};
use model::status;
use model::wrap::{backward, unwrap, wrap_behind, INTEGRITY};

use crate::broken::{frame_of, Bench, Rule};
use crate::wrapped::PADDED;

struct Wrapped {
    namespace: u8,
    tag: u16,
    uid: Vec<u8>,
    wrapped: [u8; WRAPPED],
}

impl Bench {
    /// The answer of a drive that finds another key in the line, or none.
    pub fn misopened(&mut self, rule: Rule, line: &[u8]) -> Option<Vec<u8>> {
        let load = Wrapped::of(line)?;
        let line = match load.opened(rule) {
            Some(key) => load.of_key(&key),
            None => {
                let never = wrap_behind(&PROGRAM_KEK, PADDED, &[0; KEY]);
                wrapped_frame(load.namespace, load.tag, &hex(&load.uid), &never)
            }
        };
        Some(self.line(line.as_bytes()).1)
    }

    /// Another answer than the model's to a line of kind 0E, and what comes with it.
    pub fn misjudged(&mut self, rule: Rule, line: &[u8], number: u16) -> Option<Vec<u8>> {
        let load = Wrapped::of(line)?;
        let is_spoilt = unwrap(&PROGRAM_KEK, &load.wrapped).is_none();
        match (rule, number) {
            (Rule::WrappedFirst, status::NAMESPACE | status::NOT_MANAGED | status::TAG)
            | (Rule::WrappedTag, status::TAG)
                if is_spoilt =>
            {
                Some(b"0710\n".to_vec())
            }
            (Rule::WrappedOccupied | Rule::WrappedLast, status::INTEGRITY) => {
                self.late(rule, &load)
            }
            (Rule::WrappedRefused, status::INTEGRITY) => {
                self.line(load.of_key(&load.inside().1).as_bytes());
                None
            }
            (Rule::WrappedUnchecked, status::OTHER_KEY) => {
                Some(self.out_of_sight(line, |keys| keys.fill(0)))
            }
            (Rule::WrappedConflict, status::DONE) if self.holding(&load.uid) > 1 => {
                self.line(clear_one(load.namespace, load.tag).as_bytes());
                Some(b"070C\n".to_vec())
            }
            _ => None,
        }
    }

    /// What is wrong besides the integrity value and seen before it, if that is so.
    fn late(&mut self, rule: Rule, load: &Wrapped) -> Option<Vec<u8>> {
        let (number, out) = self.line(load.of_key(&load.inside().1).as_bytes());
        match number {
            status::OCCUPIED => Some(out),
            status::OTHER_KEY if rule == Rule::WrappedLast => Some(out),
            status::DONE => {
                self.line(clear_one(load.namespace, load.tag).as_bytes());
                None
            }
            _ => None,
        }
    }

    /// How many slots are loaded with a key of this name.
    fn holding(&self, uid: &[u8]) -> usize {
        let mut head = [0; HEAD];
        head[0] = uid.len() as u8;
        head[1..=uid.len()].copy_from_slice(uid);
        self.drive.keys.chunks_exact(SLOT).filter(|slot| slot[..HEAD] == head).count()
    }
}

impl Wrapped {
    /// Of a line of kind 0E that has the right length.
    fn of(line: &[u8]) -> Option<Wrapped> {
        match frame_of(line)?[..] {
            [0x0E, namespace, t0, t1, length @ 1..=16, ref rest @ ..] => {
                let (uid, wrapped) = rest.split_at_checked(length.into())?;
                let (uid, wrapped) = (uid.to_vec(), wrapped.try_into().ok()?);
                Some(Wrapped { namespace, tag: u16::from_le_bytes([t0, t1]), uid, wrapped })
            }
            _ => None,
        }
    }

    /// The load of a key in the clear instead.
    fn of_key(&self, key: &[u8; KEY]) -> String {
        load_key(self.namespace, self.tag, &hex(&self.uid), key)
    }

    /// The key that the rule takes this for, if it takes what stands before it for the integrity value.
    fn opened(&self, rule: Rule) -> Option<[u8; KEY]> {
        let (first, key) = match rule {
            Rule::WrappedStep => self.without_steps(),
            _ => self.inside(),
        };
        let is_good = match rule {
            Rule::WrappedIntegrity => true,
            Rule::WrappedHalf => first >> 32 == INTEGRITY >> 32,
            Rule::WrappedPadded => [INTEGRITY, PADDED].contains(&first),
            _ => first == INTEGRITY,
        };
        let kept = match rule {
            Rule::WrappedKept => *self.wrapped.first_chunk().expect("32 bytes"),
            _ => key,
        };
        is_good.then_some(kept)
    }

    /// What stands before the key, and the key.
    fn inside(&self) -> (u64, [u8; KEY]) {
        let mut halves = self.halves();
        backward(&PROGRAM_KEK, &mut halves);
        split(halves)
    }

    /// The same if no step's number was added.
    fn without_steps(&self) -> (u64, [u8; KEY]) {
        let keys = aes::expand(&PROGRAM_KEK);
        let mut halves = self.halves();
        for at in (1..halves.len()).rev().cycle().take(24) {
            let block = u128::from(halves[0]) << 64 | u128::from(halves[at]);
            let block = aes::decipher(&keys, block);
            (halves[0], halves[at]) = ((block >> 64) as u64, block as u64);
        }
        split(halves)
    }

    fn halves(&self) -> [u64; 5] {
        let (halves, _) = self.wrapped.as_chunks();
        std::array::from_fn(|at| u64::from_be_bytes(halves[at]))
    }
}

fn split([first, key @ ..]: [u64; 5]) -> (u64, [u8; KEY]) {
    (first, std::array::from_fn(|at| key[at / 8].to_be_bytes()[at % 8]))
}
