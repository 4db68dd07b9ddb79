//! Management and key slots: kinds 01 to 06, and the loads of kinds 0D and 0E.

use crate::drive::Drive;
use crate::frame::{Material, Namespace, Tag};
use crate::numbers::{BLOCKS, HEAD, MARK, NAMESPACES, POOL, SLOT, STORE, TAGS, WRAPPED};
use crate::status;
use crate::wrap;

impl Namespace {
    pub fn index(self) -> Result<usize, u16> {
        match self.0 as usize {
            number @ 1..=NAMESPACES => Ok(number - 1),
            _ => Err(status::NAMESPACE),
        }
    }
}

impl Drive {
    pub(crate) fn manage(&mut self, namespace: Namespace, count: u8) -> Result<(), u16> {
        let index = namespace.index()?;
        let wanted = usize::from(count);
        if self.counts[index] != 0 {
            return Err(status::MANAGED);
        }
        if wanted == 0 || wanted > TAGS {
            return Err(status::TAG_COUNT);
        }
        if self.allocated() + wanted > POOL {
            return Err(status::POOL);
        }
        self.counts[index] = count;
        Ok(())
    }

    pub(crate) fn release(
        &mut self,
        marks: &mut [u8; STORE],
        namespace: Namespace,
    ) -> Result<(), u16> {
        let index = self.managed(namespace)?;
        self.empty_slots(index);
        marks[index * BLOCKS * MARK..][..BLOCKS * MARK].fill(0);
        self.counts[index] = 0;
        Ok(())
    }

    pub(crate) fn load(
        &mut self,
        namespace: Namespace,
        tag: Tag,
        material: Material,
    ) -> Result<(), u16> {
        let index = self.managed(namespace)?;
        let at = self.slot_at(index, tag)?;
        self.load_at(at, material)
    }

    pub(crate) fn wrapped_load(
        &mut self,
        namespace: Namespace,
        tag: Tag,
        uid: &[u8],
        wrapped: &[u8; WRAPPED],
    ) -> Result<(), u16> {
        let index = self.managed(namespace)?;
        let at = self.slot_at(index, tag)?;
        let key = wrap::unwrap(&self.kek, wrapped).ok_or(status::INTEGRITY)?;
        self.load_at(at, Material { uid, key: &key })
    }

    pub(crate) fn replace(
        &mut self,
        namespace: Namespace,
        tag: Tag,
        old: &[u8],
        material: Material,
    ) -> Result<(), u16> {
        let index = self.managed(namespace)?;
        let at = self.slot_at(index, tag)?;
        let length = usize::from(self.keys[at]);
        if length == 0 {
            return Err(status::EMPTY);
        }
        if &self.keys[at + 1..][..length] != old {
            return Err(status::OLD_KEY_UID);
        }
        self.put(at, material)
    }

    pub(crate) fn clear_one(&mut self, namespace: Namespace, tag: Tag) -> Result<(), u16> {
        let index = self.managed(namespace)?;
        let at = self.slot_at(index, tag)?;
        if self.keys[at] == 0 {
            return Err(status::EMPTY);
        }
        self.keys[at..at + SLOT].fill(0);
        Ok(())
    }

    pub(crate) fn clear_all(&mut self, namespace: Namespace) -> Result<(), u16> {
        let index = self.managed(namespace)?;
        self.empty_slots(index);
        Ok(())
    }

    /// Where the slot of a tag starts, if the namespace has that tag.
    pub(crate) fn slot_at(&self, index: usize, tag: Tag) -> Result<usize, u16> {
        if tag.0 >= u16::from(self.counts[index]) {
            return Err(status::TAG);
        }
        Ok((index * TAGS + usize::from(tag.0)) * SLOT)
    }

    fn managed(&self, namespace: Namespace) -> Result<usize, u16> {
        let index = namespace.index()?;
        match self.counts[index] {
            0 => Err(status::NOT_MANAGED),
            _ => Ok(index),
        }
    }

    /// Of a sound drive the slots past the count are zero already.
    pub(crate) fn empty_slots(&mut self, index: usize) {
        let length = usize::from(self.counts[index]) * SLOT;
        self.keys[index * TAGS * SLOT..][..length].fill(0);
    }

    fn load_at(&mut self, at: usize, material: Material) -> Result<(), u16> {
        if self.keys[at] != 0 {
            return Err(status::OCCUPIED);
        }
        self.put(at, material)
    }

    fn put(&mut self, at: usize, material: Material) -> Result<(), u16> {
        let length = material.uid.len();
        let mut slot = [0; SLOT];
        slot[0] = length as u8;
        slot[1..=length].copy_from_slice(material.uid);
        slot[HEAD..].copy_from_slice(material.key);
        if self.has_other_key(&slot) {
            return Err(status::OTHER_KEY);
        }
        self.keys[at..at + SLOT].copy_from_slice(&slot);
        Ok(())
    }

    fn has_other_key(&self, slot: &[u8; SLOT]) -> bool {
        self.counts.iter().zip(self.keys.chunks_exact(TAGS * SLOT)).any(|(&count, slots)| {
            slots[..usize::from(count) * SLOT]
                .chunks_exact(SLOT)
                .any(|loaded| loaded[..HEAD] == slot[..HEAD] && loaded[HEAD..] != slot[HEAD..])
        })
    }
}
