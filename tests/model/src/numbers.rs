//! The drive's numbers, each named once.

pub const NAMESPACES: usize = 4;
pub const BLOCKS: usize = 256;
pub const POOL: usize = 256;
pub const TAGS: usize = 128;

pub const KEY_UID: usize = 16;
pub const KEY: usize = 32;
/// A wrapped key has the integrity value's eight bytes more.
pub const WRAPPED: usize = KEY + 8;
/// A KeyUID as it is kept, in a slot and in a mark: its length, then itself padded with zeros.
pub const HEAD: usize = 1 + KEY_UID;
pub const SLOT: usize = HEAD + KEY;
pub const KEYS: usize = NAMESPACES * TAGS * SLOT;

pub const MARK: usize = HEAD;
pub const STORE: usize = NAMESPACES * BLOCKS * MARK;

/// The bytes of the key-encryption key.
pub const KEK: usize = 32;
/// The program's: bytes 00 to 1F.
pub const PROGRAM_KEK: [u8; KEK] = [
    0x00, 0x01, 0x02, 0x03, 0x04, 0x05, 0x06, 0x07, 0x08, 0x09, 0x0A, 0x0B, 0x0C, 0x0D, 0x0E, 0x0F,
    0x10, 0x11, 0x12, 0x13, 0x14, 0x15, 0x16, 0x17, 0x18, 0x19, 0x1A, 0x1B, 0x1C, 0x1D, 0x1E, 0x1F,
];

pub const UNLOCKED: u8 = 1;
pub const LOCKED: u8 = 2;
pub const UNTIL_POWER_CYCLE: u8 = 3;

/// The most bytes that a load's message has.
pub const MESSAGE: usize = 508;
/// The bytes of the longest frame: kind, namespace, tag and such a message.
pub const FRAME: usize = 1 + 1 + 2 + MESSAGE;
/// The bytes of the longest frame without a message, a replace with two KeyUIDs of 16.
pub const REPLACE: usize = 1 + 1 + 2 + HEAD + HEAD + KEY;
pub const COMMAND: usize = 64;
/// The bytes of a discovery response.
pub const RESPONSE: usize = 112;
/// What every line must have room for but the line that asks for discovery.
pub const ROOM: usize = 13;
/// What that line must have room for: 00 00 and the response as digits, and the line feed.
pub const DISCOVERY_ROOM: usize = 2 * (2 + RESPONSE) + 1;

/// Counts, locks, keys and the key-encryption key in one run of bytes.
pub const IMAGE: usize = NAMESPACES + 2 + KEYS + KEK;

/// The most the program reads, and the most it prints.
pub const INPUT: usize = 4096;
pub const OUTPUT: usize = 53_248;
