//! The drive's state: fresh, sound or not, and as an image.

use crate::numbers::{
    HEAD, IMAGE, KEK, KEYS, KEY_UID, LOCKED, NAMESPACES, POOL, SLOT, STORE, TAGS, UNLOCKED,
    UNTIL_POWER_CYCLE,
};
use crate::status;

/// The slot of (namespace, tag) starts at `((namespace - 1) * 128 + tag) * 49` of `keys`: KeyUID
/// length (0 for an empty slot), KeyUID padded with zeros to 16, key.
#[derive(Clone, Debug, PartialEq, Eq)]
pub struct Drive {
    /// Tag counts, 0 for a namespace that is not managed.
    pub counts: [u8; NAMESPACES],
    /// 1 Write Unlocked, 2 Write Locked, 3 Write Locked Until Power Cycle.
    pub locks: [u8; 2],
    pub keys: [u8; KEYS],
    /// What wrapped keys are opened with. No frame changes it.
    pub kek: [u8; KEK],
}

static ZEROS: [u8; TAGS * SLOT] = [0; TAGS * SLOT];

impl Drive {
    pub fn fresh(kek: &[u8; KEK]) -> Drive {
        Drive { counts: [0; NAMESPACES], locks: [LOCKED; 2], keys: [0; KEYS], kek: *kek }
    }

    /// Zeroes the store of a fresh drive; another length than a store's gives 07 0D.
    pub fn start(kek: &[u8; KEK], store: &mut [u8]) -> (u16, Drive) {
        if store.len() != STORE {
            return (status::STORE, Drive::fresh(kek));
        }
        store.fill(0);
        (status::DONE, Drive::fresh(kek))
    }

    pub fn sound(&self) -> bool {
        self.allocated() <= POOL
            && self.counts.iter().zip(self.keys.chunks_exact(TAGS * SLOT)).all(|(&count, slots)| {
                let count = usize::from(count);
                count <= TAGS && sound_slots(slots.split_at(count * SLOT))
            })
    }

    pub(crate) fn allocated(&self) -> usize {
        self.counts.iter().map(|&count| usize::from(count)).sum()
    }

    pub fn to_image(&self) -> [u8; IMAGE] {
        let mut image = [0; IMAGE];
        let (counts, rest) = image.split_at_mut(self.counts.len());
        let (locks, rest) = rest.split_at_mut(self.locks.len());
        let (keys, kek) = rest.split_at_mut(self.keys.len());
        counts.copy_from_slice(&self.counts);
        locks.copy_from_slice(&self.locks);
        keys.copy_from_slice(&self.keys);
        kek.copy_from_slice(&self.kek);
        image
    }

    /// Any counts and keys, sound or not, and any key-encryption key; None for another length or a
    /// lock byte outside 1 to 3.
    pub fn from_image(image: &[u8]) -> Option<Drive> {
        let (&counts, rest) = image.split_first_chunk()?;
        let (&locks, rest) = rest.split_first_chunk()?;
        let (&keys, kek) = rest.split_first_chunk()?;
        let kek = kek.try_into().ok()?;
        let known = locks.iter().all(|lock| (UNLOCKED..=UNTIL_POWER_CYCLE).contains(lock));
        known.then_some(Drive { counts, locks, keys, kek })
    }
}

fn sound_slots((allocated, others): (&[u8], &[u8])) -> bool {
    allocated.chunks_exact(SLOT).all(sound_slot) && others == &ZEROS[..others.len()]
}

fn sound_slot(slot: &[u8]) -> bool {
    match usize::from(slot[0]) {
        0 => slot[..SLOT] == ZEROS[..SLOT],
        length @ 1..=KEY_UID => slot[1 + length..HEAD] == ZEROS[1 + length..HEAD],
        _ => false,
    }
}
