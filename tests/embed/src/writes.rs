//! The writer over what can be gone through from end to end, and over random words; what it writes is
//! sent to the drive.

use embed::Rng;
use model::numbers::{KEY, KEY_UID};

use crate::office::{Done, Load, Office, UID};
use crate::writer::{Wanted, MESSAGE_ROOM};

const PLACES: [(u8, u16); 8] =
    [(1, 0), (1, 63), (2, 64), (3, 1), (4, 0x0102), (0, 0x8000), (5, 0x7FFF), (255, 0xFFFF)];
const KEYS: [usize; 7] = [0, 1, 31, 32, 33, 64, 288];
const ROOMS: [usize; 10] = [0, 1, 8, 399, 400, 401, 407, 408, 409, 500];

impl Office {
    pub fn writes(&mut self) -> Done {
        for (namespace, tag) in PLACES {
            for uid in (0..=UID.len()).map(|length| &UID[..length]) {
                for key in KEYS.map(|length| vec![0x5A; length]) {
                    self.rooms(Wanted { namespace, tag, uid, key: &key, room: 0 })?;
                }
            }
        }
        self.numbers()
    }

    fn rooms(&mut self, wanted: Wanted) -> Done {
        ROOMS.into_iter().try_for_each(|room| self.write_and_send(Wanted { room, ..wanted }))
    }

    /// Every namespace, and tags of all kinds.
    fn numbers(&mut self) -> Done {
        let key: Vec<u8> = (0..KEY as u8).map(|byte| 7 * byte).collect();
        let tags = (0..=0x0110).chain((0..16).map(|bit| 1 << bit)).chain([0x1234, 0xFFFE, 0xFFFF]);
        let namespaces = (0..=255).map(|namespace| (namespace, 0x0102));
        for (namespace, tag) in namespaces.chain(tags.map(|tag| (4, tag))) {
            let uid = &UID[..1 + usize::from(tag) % KEY_UID];
            self.write_and_send(Wanted { namespace, tag, uid, key: &key, room: MESSAGE_ROOM })?;
        }
        Ok(())
    }

    /// One message, of any bytes.
    pub fn write_step(&mut self) -> Done {
        let mut bytes = [0; UID.len() + 2 * KEY];
        self.rng.fill(&mut bytes);
        let (uid, key) = bytes.split_at(UID.len());
        let (uid, key) = (&uid[..uid_length(&mut self.rng)], &key[..key_length(&mut self.rng)]);
        let (namespace, tag) = match self.rng.below(4) {
            0 => (self.rng.byte(), self.rng.word() as u16),
            _ => (1 + self.rng.below(4) as u8, self.rng.below(64) as u16),
        };
        let room = match self.rng.below(8) {
            0 => self.rng.below(MESSAGE_ROOM),
            1 => MESSAGE_ROOM - 1 - self.rng.below(9),
            2 | 3 => MESSAGE_ROOM + self.rng.below(64),
            _ => MESSAGE_ROOM,
        };
        self.write_and_send(Wanted { namespace, tag, uid, key, room })
    }

    fn write_and_send(&mut self, wanted: Wanted) -> Done {
        let Some(message) = self.writer.write(&wanted)? else {
            return Ok(());
        };
        let Wanted { namespace, tag, uid, key, .. } = wanted;
        let load = Load { namespace, tag, uid, key: key.try_into().expect("a key") };
        self.does_as_load(&load.by_message(&message), &load).map(|_| ())
    }
}

fn uid_length(rng: &mut Rng) -> usize {
    match rng.below(8) {
        0 => rng.pick(&[0, 17, 18, 19, 20]),
        _ => 1 + rng.below(KEY_UID),
    }
}

fn key_length(rng: &mut Rng) -> usize {
    match rng.below(8) {
        0 => rng.below(2 * KEY + 1),
        _ => KEY,
    }
}
