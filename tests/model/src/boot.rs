//! Boot locks and resets: kinds 08 to 0B.

use crate::drive::Drive;
use crate::numbers::{LOCKED, NAMESPACES, UNLOCKED, UNTIL_POWER_CYCLE};
use crate::status;

const NO_CHANGE: u8 = 0;

impl Drive {
    pub(crate) fn set_features(&mut self, dword: u32) -> Result<(), u16> {
        let wanted = [(dword & 7) as u8, (dword >> 3 & 7) as u8];
        if dword >> 6 != 0 || wanted.iter().any(|&field| field > UNTIL_POWER_CYCLE) {
            return Err(status::FIELD);
        }
        let fixed = |(&field, &lock): (&u8, &u8)| {
            lock == UNTIL_POWER_CYCLE && field != NO_CHANGE && field != lock
        };
        if wanted.iter().zip(&self.locks).any(fixed) {
            return Err(status::LOCK_FIXED);
        }
        for (lock, field) in self.locks.iter_mut().zip(wanted) {
            if field != NO_CHANGE {
                *lock = field;
            }
        }
        Ok(())
    }

    pub(crate) fn get_features(&self) -> u32 {
        u32::from(self.locks[0]) | u32::from(self.locks[1]) << 3
    }

    pub(crate) fn boot_write(&self, partition: u8) -> Result<(), u16> {
        match self.locks.get(usize::from(partition)) {
            None => Err(status::FIELD),
            Some(&UNLOCKED) => Ok(()),
            Some(_) => Err(status::WRITE_LOCKED),
        }
    }

    pub(crate) fn reset(&mut self, level: u8) -> Result<(), u16> {
        match level {
            0 => Ok(()),
            1 => {
                (0..NAMESPACES).for_each(|index| self.empty_slots(index));
                self.locks = [LOCKED; 2];
                Ok(())
            }
            _ => Err(status::FIELD),
        }
    }
}
