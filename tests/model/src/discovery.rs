//! Level 0 Discovery: the response's fields, the drive's own, the writer, and the reader a host uses.
//!
//! Positions are those of tables 2 to 4 in section 3.1.1 of source document 001. Unlike a frame's,
//! numbers of several bytes are big-endian. Writer and reader share the codes and lengths alone: the
//! writer puts down byte after byte, the reader goes by offset and bit.

use crate::io::field;
use crate::numbers::{KEY_UID, POOL, RESPONSE, TAGS};
use crate::status;

const HEADER: usize = 48;
/// The header's length field counts what stands behind it.
const LENGTH: u32 = 0x6C;

const TPER: [u8; 2] = [0x00, 0x01];
const KEY_PER_IO: [u8; 2] = [0x03, 0x05];
/// A feature's head: code, versions, and the number of bytes that follow.
const HEAD: usize = 4;
const TPER_LENGTH: u8 = 0x0C;
const KEY_PER_IO_LENGTH: u8 = 0x2C;

#[derive(Clone, Debug, Default, PartialEq, Eq)]
pub struct Header {
    pub revision: u32,
    pub vendor_specific: [u8; 32],
}

#[derive(Clone, Debug, Default, PartialEq, Eq)]
pub struct Tper {
    /// 4 bits.
    pub version: u8,
    pub com_id_mgmt: bool,
    pub streaming: bool,
    pub buffer_mgmt: bool,
    pub ack_nack: bool,
    pub async_: bool,
    pub sync: bool,
}

#[derive(Clone, Debug, Default, PartialEq, Eq)]
pub struct KeyPerIo {
    /// 4 bits.
    pub version: u8,
    /// 4 bits.
    pub ssc_minor_version: u8,
    pub protocol_01_base_com_id: u16,
    pub protocol_01_com_ids: u16,
    pub protocol_03_base_com_id: u16,
    pub protocol_03_com_ids: u16,
    pub initial_pin: u8,
    pub pin_on_revert: u8,
    pub admin_authorities: u16,
    pub replay_protection_enabled: bool,
    pub replay_protection_supported: bool,
    pub incorrect_key_detection: bool,
    pub shared_tweak_key_required: bool,
    /// False: each namespace on its own.
    pub scope: bool,
    pub enabled: bool,
    pub max_key_uid_length: u16,
    pub kmip: bool,
    pub rsa_oaep: bool,
    pub aes_gcm: bool,
    pub aes_kw: bool,
    pub aes_256_wrapping_key: bool,
    pub rsa_4k_wrapping_key: bool,
    pub rsa_3k_wrapping_key: bool,
    pub rsa_2k_wrapping_key: bool,
    pub pki_kek_transport: bool,
    pub plaintext_kek_provisioning: bool,
    pub key_encryption_keys: u32,
    pub key_tags: u32,
    pub key_tags_per_namespace: u16,
    pub nonce_length: u8,
}

/// What a response is written from.
#[derive(Clone, Debug, Default, PartialEq, Eq)]
pub struct Fields {
    pub header: Header,
    pub tper: Tper,
    pub key_per_io: KeyPerIo,
}

/// What a host finds; None for a feature that is missing or too short.
#[derive(Clone, Debug, PartialEq, Eq)]
pub struct Found {
    pub header: Header,
    pub tper: Option<Tper>,
    pub key_per_io: Option<KeyPerIo>,
}

/// The drive's own; what it lacks is zero.
pub fn own() -> Fields {
    Fields {
        header: Header { revision: 1, ..Header::default() },
        tper: Tper { version: 1, ..Tper::default() },
        key_per_io: KeyPerIo {
            version: 1,
            incorrect_key_detection: true,
            // A slot holds one key of 32 bytes, and no tweak key comes with it.
            shared_tweak_key_required: true,
            enabled: true,
            max_key_uid_length: KEY_UID as u16,
            kmip: true,
            aes_kw: true,
            aes_256_wrapping_key: true,
            // The one that is there from the start: no host brings it.
            key_encryption_keys: 1,
            key_tags: POOL as u32,
            key_tags_per_namespace: TAGS as u16,
            ..KeyPerIo::default()
        },
    }
}

/// Of the fields of 4 bits only those are written.
pub fn write(fields: &Fields) -> [u8; RESPONSE] {
    let mut bytes = Vec::with_capacity(RESPONSE);
    write_header(&mut bytes, &fields.header);
    write_tper(&mut bytes, &fields.tper);
    write_capabilities(&mut bytes, &fields.key_per_io);
    write_wrapping(&mut bytes, &fields.key_per_io);
    write_counts(&mut bytes, &fields.key_per_io);
    bytes.try_into().expect("a header of 48 bytes, features of 16 and 48")
}

/// A reserved bit.
const R: bool = false;

/// A row of a table, bit 7 first.
fn row(bits: [bool; 8]) -> u8 {
    bits.into_iter().fold(0, |byte, bit| byte << 1 | u8::from(bit))
}

fn versions(major: u8, minor: u8) -> u8 {
    major << 4 | minor & 0x0F
}

fn write_header(bytes: &mut Vec<u8>, header: &Header) {
    bytes.extend(LENGTH.to_be_bytes());
    bytes.extend(header.revision.to_be_bytes());
    bytes.extend([0; 8]);
    bytes.extend(header.vendor_specific);
}

fn write_tper(bytes: &mut Vec<u8>, of: &Tper) {
    bytes.extend(TPER);
    bytes.extend([versions(of.version, 0), TPER_LENGTH]);
    bytes.push(row([
        R,
        of.com_id_mgmt,
        R,
        of.streaming,
        of.buffer_mgmt,
        of.ack_nack,
        of.async_,
        of.sync,
    ]));
    bytes.extend([0; 11]);
}

/// Bytes 0 to 18 of the Key Per I/O feature.
fn write_capabilities(bytes: &mut Vec<u8>, of: &KeyPerIo) {
    bytes.extend(KEY_PER_IO);
    bytes.extend([versions(of.version, of.ssc_minor_version), KEY_PER_IO_LENGTH]);
    bytes.extend(of.protocol_01_base_com_id.to_be_bytes());
    bytes.extend(of.protocol_01_com_ids.to_be_bytes());
    bytes.extend(of.protocol_03_base_com_id.to_be_bytes());
    bytes.extend(of.protocol_03_com_ids.to_be_bytes());
    bytes.extend([of.initial_pin, of.pin_on_revert]);
    bytes.extend(of.admin_authorities.to_be_bytes());
    bytes.push(row([
        R,
        R,
        of.replay_protection_enabled,
        of.replay_protection_supported,
        of.incorrect_key_detection,
        of.shared_tweak_key_required,
        of.scope,
        of.enabled,
    ]));
    bytes.extend(of.max_key_uid_length.to_be_bytes());
}

/// Bytes 19 to 31: how a key may come. Each row has a reserved byte behind it.
fn write_wrapping(bytes: &mut Vec<u8>, of: &KeyPerIo) {
    let (rsa_4k, rsa_3k, rsa_2k) =
        (of.rsa_4k_wrapping_key, of.rsa_3k_wrapping_key, of.rsa_2k_wrapping_key);
    let (pki, plaintext) = (of.pki_kek_transport, of.plaintext_kek_provisioning);
    bytes.extend([row([R, R, R, R, R, R, R, of.kmip]), 0]);
    bytes.extend([row([R, R, R, R, R, of.rsa_oaep, of.aes_gcm, of.aes_kw]), 0]);
    bytes.extend([row([R, R, R, R, R, R, R, of.aes_256_wrapping_key]), 0]);
    bytes.extend([row([R, R, R, R, R, rsa_4k, rsa_3k, rsa_2k]), 0]);
    bytes.extend([row([R, R, R, R, R, R, pki, plaintext]), 0]);
    bytes.extend([0; 3]);
}

/// Bytes 32 to 47.
fn write_counts(bytes: &mut Vec<u8>, of: &KeyPerIo) {
    bytes.extend(of.key_encryption_keys.to_be_bytes());
    bytes.extend(of.key_tags.to_be_bytes());
    bytes.extend(of.key_tags_per_namespace.to_be_bytes());
    bytes.push(of.nonce_length);
    bytes.extend([0; 5]);
}

/// What any bytes tell a host; 07 16 when they end too early. What stands behind the end that the
/// header gives is not looked at, nor are reserved bits; no version is refused.
pub fn read(data: &[u8]) -> Result<Found, u16> {
    let end = end(data).ok_or(status::DISCOVERY)?;
    let features = features(&data[HEADER..end]).ok_or(status::DISCOVERY)?;
    // The first of its code counts, so a longer one behind a short one is not found.
    let first = |code: [u8; 2]| features.iter().find(|feature| feature[..2] == code);
    Ok(Found {
        header: Header {
            revision: u32::from_be_bytes(field(data, 4)),
            vendor_specific: field(data, 16),
        },
        tper: first(TPER).and_then(|feature| read_tper(feature)),
        key_per_io: first(KEY_PER_IO).and_then(|feature| read_key_per_io(feature)),
    })
}

/// Where the header says that the response ends, if that is in the data and not in the header. The
/// sum is taken in 64 bits, for the length may be FFFFFFFF.
fn end(data: &[u8]) -> Option<usize> {
    let &length = data.first_chunk()?;
    let end = usize::try_from(u64::from(u32::from_be_bytes(length)) + 4).ok()?;
    (HEADER..=data.len()).contains(&end).then_some(end)
}

/// The features of whatever code, with their heads; None if a head or a length runs past the end.
fn features(mut rest: &[u8]) -> Option<Vec<&[u8]>> {
    let mut features = Vec::new();
    while !rest.is_empty() {
        let length = *rest.get(HEAD - 1)?;
        let (feature, others) = rest.split_at_checked(HEAD + usize::from(length))?;
        features.push(feature);
        rest = others;
    }
    Some(features)
}

fn bit(feature: &[u8], byte: usize, bit: u8) -> bool {
    feature[byte] >> bit & 1 == 1
}

fn read_tper(feature: &[u8]) -> Option<Tper> {
    if feature[3] < TPER_LENGTH {
        return None;
    }
    Some(Tper {
        version: feature[2] >> 4,
        com_id_mgmt: bit(feature, 4, 6),
        streaming: bit(feature, 4, 4),
        buffer_mgmt: bit(feature, 4, 3),
        ack_nack: bit(feature, 4, 2),
        async_: bit(feature, 4, 1),
        sync: bit(feature, 4, 0),
    })
}

fn read_key_per_io(feature: &[u8]) -> Option<KeyPerIo> {
    if feature[3] < KEY_PER_IO_LENGTH {
        return None;
    }
    Some(KeyPerIo {
        version: feature[2] >> 4,
        ssc_minor_version: feature[2] & 0x0F,
        protocol_01_base_com_id: u16::from_be_bytes(field(feature, 4)),
        protocol_01_com_ids: u16::from_be_bytes(field(feature, 6)),
        protocol_03_base_com_id: u16::from_be_bytes(field(feature, 8)),
        protocol_03_com_ids: u16::from_be_bytes(field(feature, 10)),
        initial_pin: feature[12],
        pin_on_revert: feature[13],
        admin_authorities: u16::from_be_bytes(field(feature, 14)),
        replay_protection_enabled: bit(feature, 16, 5),
        replay_protection_supported: bit(feature, 16, 4),
        incorrect_key_detection: bit(feature, 16, 3),
        shared_tweak_key_required: bit(feature, 16, 2),
        scope: bit(feature, 16, 1),
        enabled: bit(feature, 16, 0),
        max_key_uid_length: u16::from_be_bytes(field(feature, 17)),
        kmip: bit(feature, 19, 0),
        rsa_oaep: bit(feature, 21, 2),
        aes_gcm: bit(feature, 21, 1),
        aes_kw: bit(feature, 21, 0),
        aes_256_wrapping_key: bit(feature, 23, 0),
        rsa_4k_wrapping_key: bit(feature, 25, 2),
        rsa_3k_wrapping_key: bit(feature, 25, 1),
        rsa_2k_wrapping_key: bit(feature, 25, 0),
        pki_kek_transport: bit(feature, 27, 1),
        plaintext_kek_provisioning: bit(feature, 27, 0),
        key_encryption_keys: u32::from_be_bytes(field(feature, 32)),
        key_tags: u32::from_be_bytes(field(feature, 36)),
        key_tags_per_namespace: u16::from_be_bytes(field(feature, 40)),
        nonce_length: feature[42],
    })
}
