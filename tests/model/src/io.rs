//! The key check of I/O commands and the marks: kind 07.

use std::ops::Range;

use crate::drive::Drive;
use crate::frame::{Namespace, Tag};
use crate::numbers::{BLOCKS, COMMAND, MARK, STORE};
use crate::status;

const CETYPE_KEY_TAG: u8 = 1;

impl Drive {
    pub(crate) fn io(&self, marks: &mut [u8; STORE], command: &[u8; COMMAND]) -> Result<(), u16> {
        let is_write = match command[0] {
            0x01 => true,
            0x02 | 0x05 | 0x0C => false,
            _ => return Err(status::OPCODE),
        };
        let index = Namespace(u32::from_le_bytes(field(command, 4))).index()?;
        let blocks = blocks(command)?;
        if self.counts[index] == 0 {
            return Ok(());
        }
        if command[50] & 0x0F != CETYPE_KEY_TAG {
            return Err(status::FIELD);
        }
        let at = self.slot_at(index, Tag(u16::from_le_bytes(field(command, 52))))?;
        if self.keys[at] == 0 {
            return Err(status::TAG);
        }
        let key_uid: [u8; MARK] = field(&self.keys, at);
        let first = index * BLOCKS;
        let covered = &mut marks[(first + blocks.start) * MARK..(first + blocks.end) * MARK];
        if is_write {
            covered.chunks_exact_mut(MARK).for_each(|mark| mark.copy_from_slice(&key_uid));
        } else if covered.chunks_exact(MARK).any(|mark| mark[0] != 0 && mark != key_uid) {
            return Err(status::WRONG_KEY);
        }
        Ok(())
    }
}

fn blocks(command: &[u8; COMMAND]) -> Result<Range<usize>, u16> {
    let first = u64::from_le_bytes(field(command, 40));
    let count = 1 + usize::from(u16::from_le_bytes(field(command, 48)));
    if first >= BLOCKS as u64 || count > BLOCKS - first as usize {
        return Err(status::BLOCK_RANGE);
    }
    let first = first as usize;
    Ok(first..first + count)
}

pub(crate) fn field<const N: usize>(bytes: &[u8], at: usize) -> [u8; N] {
    bytes[at..at + N].try_into().unwrap()
}
