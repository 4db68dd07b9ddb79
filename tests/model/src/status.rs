//! The answers' numbers: status type in the high byte, status code in the low one.

pub const DONE: u16 = 0x0000;
pub const OPCODE: u16 = 0x0001;
pub const FIELD: u16 = 0x0002;
pub const NAMESPACE: u16 = 0x000B;
pub const TAG: u16 = 0x0025;
pub const WRONG_KEY: u16 = 0x0028;
pub const BLOCK_RANGE: u16 = 0x0080;

pub const LOCK_FIXED: u16 = 0x010E;
pub const WRITE_LOCKED: u16 = 0x011E;

/// The answer says more, `frame::Fault`.
pub const LINE: u16 = 0x0701;
pub const KIND: u16 = 0x0702;
pub const LENGTH: u16 = 0x0703;
pub const KEY_UID_LENGTH: u16 = 0x0704;
pub const MANAGED: u16 = 0x0705;
pub const NOT_MANAGED: u16 = 0x0706;
pub const TAG_COUNT: u16 = 0x0707;
pub const POOL: u16 = 0x0708;
pub const OCCUPIED: u16 = 0x0709;
pub const EMPTY: u16 = 0x070A;
pub const OLD_KEY_UID: u16 = 0x070B;
pub const OTHER_KEY: u16 = 0x070C;
pub const STORE: u16 = 0x070D;
pub const UNSOUND: u16 = 0x070E;
pub const OUTPUT: u16 = 0x070F;
/// Of a wrapped key another integrity value came out.
pub const INTEGRITY: u16 = 0x0710;
pub const DISCOVERY: u16 = 0x0716;
pub const MESSAGE: u16 = 0x0717;
pub const MESSAGE_KEY_UID: u16 = 0x0718;
