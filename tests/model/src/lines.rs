//! Frames as text lines, for the tests and the session files. KeyUIDs are given as digits, a key
//! as the byte that fills it, a block count as its field, which is one less.

use crate::kmip;
use crate::numbers::{COMMAND, KEY, PROGRAM_KEK};
use crate::wrap::wrap;

pub const WRITE: u8 = 0x01;
pub const READ: u8 = 0x02;
pub const COMPARE: u8 = 0x05;
pub const VERIFY: u8 = 0x0C;

pub fn hex(bytes: &[u8]) -> String {
    bytes.iter().map(|byte| format!("{byte:02X}")).collect()
}

/// The bytes of digits, which are as `hex` writes them.
pub fn unhex(digits: &str) -> Vec<u8> {
    let byte = |at| u8::from_str_radix(&digits[at..at + 2], 16).expect("two digits");
    (0..digits.len()).step_by(2).map(byte).collect()
}

fn tagged(kind: u8, namespace: u8, tag: u16) -> String {
    hex(&[kind, namespace]) + &hex(&tag.to_le_bytes())
}

fn with_length(uid: &str) -> String {
    format!("{:02X}{uid}", uid.len() / 2)
}

pub fn manage(namespace: u8, count: u8) -> String {
    hex(&[0x01, namespace, count])
}

pub fn release(namespace: u8) -> String {
    hex(&[0x02, namespace])
}

pub fn load(namespace: u8, tag: u16, uid: &str, key: u8) -> String {
    load_key(namespace, tag, uid, &[key; KEY])
}

pub fn load_key(namespace: u8, tag: u16, uid: &str, key: &[u8; KEY]) -> String {
    tagged(0x03, namespace, tag) + &with_length(uid) + &hex(key)
}

pub fn replace(namespace: u8, tag: u16, old: &str, new: &str, key: u8) -> String {
    tagged(0x04, namespace, tag) + &with_length(old) + &with_length(new) + &hex(&[key; KEY])
}

pub fn clear_one(namespace: u8, tag: u16) -> String {
    tagged(0x05, namespace, tag)
}

pub fn clear_all(namespace: u8) -> String {
    hex(&[0x06, namespace])
}

pub fn io(opcode: u8, namespace: u32, tag: u16, first: u64, field: u16) -> String {
    let mut command = [0; COMMAND];
    command[0] = opcode;
    command[4..8].copy_from_slice(&namespace.to_le_bytes());
    command[40..48].copy_from_slice(&first.to_le_bytes());
    command[48..50].copy_from_slice(&field.to_le_bytes());
    command[50] = 1;
    command[52..54].copy_from_slice(&tag.to_le_bytes());
    "07".to_string() + &hex(&command)
}

pub fn write(namespace: u32, tag: u16, first: u64, field: u16) -> String {
    io(WRITE, namespace, tag, first, field)
}

pub fn read(namespace: u32, tag: u16, first: u64, field: u16) -> String {
    io(READ, namespace, tag, first, field)
}

/// An I/O line with another value in one byte of its command.
pub fn with(line: &str, byte: usize, value: u8) -> String {
    let at = 2 + 2 * byte;
    format!("{}{value:02X}{}", &line[..at], &line[at + 2..])
}

pub fn set_features(dword: u32) -> String {
    "08".to_string() + &hex(&dword.to_le_bytes())
}

pub fn get_features() -> String {
    "09".to_string()
}

pub fn boot_write(partition: u8) -> String {
    hex(&[0x0A, partition])
}

pub fn controller_reset() -> String {
    "0B00".to_string()
}

pub fn power_cycle() -> String {
    "0B01".to_string()
}

pub fn discovery() -> String {
    "0C".to_string()
}

/// A load in KMIP form.
pub fn message_load(namespace: u8, tag: u16, uid: &str, key: u8) -> String {
    let message = kmip::message(namespace, tag, &unhex(uid), &[key; KEY]);
    message_frame(namespace, tag, &message)
}

/// A frame of kind 0D with any bytes for its message.
pub fn message_frame(namespace: u8, tag: u16, message: &[u8]) -> String {
    tagged(0x0D, namespace, tag) + &hex(message)
}

/// A load of a key that was wrapped with the program's key-encryption key.
pub fn wrapped_load(namespace: u8, tag: u16, uid: &str, key: u8) -> String {
    wrapped_frame(namespace, tag, uid, &wrap(&PROGRAM_KEK, &[key; KEY]))
}

/// A frame of kind 0E with any bytes for its wrapped key.
pub fn wrapped_frame(namespace: u8, tag: u16, uid: &str, wrapped: &[u8]) -> String {
    tagged(0x0E, namespace, tag) + &with_length(uid) + &hex(wrapped)
}
