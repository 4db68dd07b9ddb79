//! Lines of kind 0E from end to end: wrapped keys to every kind of place, each bit of one changed, of
//! the key-encryption key and of the integrity value, and every length.

use embed::Rng;
use model::numbers::{KEK, KEY_UID, PROGRAM_KEK, WRAPPED};
use model::wrap::{wrap, wrap_behind, INTEGRITY};

use crate::imports::{EMPTY, NAMESPACES, TAGS};
use crate::office::{Done, Load, Office, KEY_BYTES, UID};
use crate::pair::Difference;

/// Other integrity values: none, halves of the right one, and that of the key wrap with padding.
const VALUES: [u64; 5] =
    [0, u64::MAX, 0xA6A6_A6A6_0000_0000, 0x0000_0000_A6A6_A6A6, 0xA659_59A6_0000_0020];

/// The drives whose key-encryption key came from the seed.
const RANDOM_KEKS: usize = 2;

impl Office {
    pub fn couriers(&mut self) -> Done {
        self.carried_to_places()?;
        for kek in keks(&mut self.rng) {
            self.agree_on(&kek);
            for (namespace, tag, length) in EMPTY {
                let load = Load { namespace, tag, uid: &UID[..length], key: &KEY_BYTES };
                self.is_taken(&load.by_courier(&wrap(&kek, load.key)), &load)?;
                self.spoilt(&load, &kek)?;
            }
        }
        self.agree_on(&PROGRAM_KEK);
        self.carried_lengths()
    }

    /// KeyUIDs of each length at places of all kinds, and at each a key that does not open; those of
    /// a wrong length have no load.
    fn carried_to_places(&mut self) -> Done {
        let wrapped = wrap(&PROGRAM_KEK, &KEY_BYTES);
        for (namespace, tag) in NAMESPACES.into_iter().flat_map(|one| TAGS.map(|two| (one, two))) {
            for uid in (0..=UID.len()).map(|length| &UID[..length]) {
                let load = Load { namespace, tag, uid, key: &KEY_BYTES };
                match uid.len() {
                    1..=KEY_UID => self.does_as_load(&load.by_courier(&wrapped), &load)?,
                    _ => self.carry(&load, &wrapped)?,
                };
                self.carry(&load, &flipped(wrapped, 0))?;
            }
        }
        Ok(())
    }

    /// What is nearly a wrapped key.
    fn spoilt(&mut self, load: &Load, kek: &[u8; KEK]) -> Done {
        let wrapped = wrap(kek, load.key);
        for bit in 0..8 * WRAPPED {
            self.carry(load, &flipped(wrapped, bit))?;
        }
        for bit in 0..8 * KEK {
            self.carry(load, &wrap(&flipped(*kek, bit), load.key))?;
        }
        let values = (0..64).map(|bit| INTEGRITY ^ 1 << bit).chain(VALUES);
        for value in values {
            self.carry(load, &wrap_behind(kek, value, load.key))?;
        }
        for byte in [0x00, 0xA6, 0xFF] {
            self.carry(load, &[byte; WRAPPED])?;
        }
        Ok(())
    }

    fn carried_lengths(&mut self) -> Done {
        for (namespace, tag, length) in EMPTY {
            let load = Load { namespace, tag, uid: &UID[..length], key: &KEY_BYTES };
            let wrapped = wrap(&PROGRAM_KEK, load.key);
            self.cuts(&load.by_courier(&wrapped))?;
            self.carry(&load, load.key)?;
        }
        Ok(())
    }

    fn carry(&mut self, load: &Load, wrapped: &[u8]) -> Result<u16, Difference> {
        let line = load.by_courier(wrapped);
        self.send_cut(&line, line.len())
    }
}

/// The program's, ends of what a byte holds, the key itself, and some that came from the seed.
fn keks(rng: &mut Rng) -> Vec<[u8; KEK]> {
    let mut keks = vec![PROGRAM_KEK, [0x00; KEK], [0xFF; KEK], KEY_BYTES];
    keks.resize(keks.len() + RANDOM_KEKS, [0; KEK]);
    keks.iter_mut().rev().take(RANDOM_KEKS).for_each(|kek| rng.fill(kek));
    keks
}

pub fn flipped<const N: usize>(mut bytes: [u8; N], bit: usize) -> [u8; N] {
    bytes[bit / 8] ^= 0x80 >> (bit % 8);
    bytes
}
