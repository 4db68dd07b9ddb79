//! What a drive answers discovery with: whole responses, and those of a broken or ill-meaning one.

use embed::Rng;
use model::discovery::{read, Fields};

pub const HEADER: usize = 48;
pub const HEAD: usize = 4;

pub const TPER: u16 = 0x0001;
pub const KEY_PER_IO: u16 = 0x0305;
/// Their lengths in 001.
pub const TPER_LENGTH: u8 = 0x0C;
pub const KEY_PER_IO_LENGTH: u8 = 0x2C;

/// Codes that a host does not know, most of them with a byte of one that it knows.
pub const UNKNOWN: [u16; 11] =
    [0x0000, 0x0100, 0x0101, 0x0002, 0x0003, 0x0005, 0x0301, 0x0304, 0x0503, 0x0402, 0xFFFF];

/// Around the lengths of 001, and the ends of a length byte.
pub const LENGTHS: [u8; 11] = [0, 1, 0x0B, 0x0C, 0x0D, 0x2B, 0x2C, 0x2D, 0x7F, 0x80, 0xFF];

/// Header lengths: none, around the header's end and the response's, and where a sum could wrap.
pub const HEADER_LENGTHS: [u32; 14] = [
    0,
    1,
    0x2B,
    0x2C,
    0x6B,
    0x6C,
    0x6D,
    0x7FFF_FFFF,
    0x8000_0000,
    0xFFFF_FFFB,
    0xFFFF_FFFC,
    0xFFFF_FFFD,
    0xFFFF_FFFE,
    0xFFFF_FFFF,
];

pub fn header(rng: &mut Rng) -> [u8; HEADER] {
    let mut header = [0; HEADER];
    rng.fill(&mut header);
    header
}

/// A feature with anything in its versions and behind its head.
pub fn feature(rng: &mut Rng, code: u16, length: u8) -> Vec<u8> {
    let mut feature = vec![0; HEAD + usize::from(length)];
    rng.fill(&mut feature);
    feature[..2].copy_from_slice(&code.to_be_bytes());
    feature[3] = length;
    feature
}

/// Both features that a host knows, of their lengths in 001.
pub fn features(rng: &mut Rng) -> [Vec<u8>; 2] {
    [feature(rng, TPER, TPER_LENGTH), feature(rng, KEY_PER_IO, KEY_PER_IO_LENGTH)]
}

/// The header's length becomes right.
pub fn response(header: &[u8], features: &[Vec<u8>]) -> Vec<u8> {
    let mut data = [header, &features.concat()].concat();
    end_at(&mut data, HEADER + features.concat().len());
    data
}

/// Makes the header's length tell this end.
pub fn end_at(data: &mut [u8], end: usize) {
    set_length(data, end as u32 - 4);
}

pub fn set_length(data: &mut [u8], length: u32) {
    data[..4].copy_from_slice(&length.to_be_bytes());
}

/// The features of a sound response, with their heads.
pub fn features_of(data: &[u8]) -> Vec<Vec<u8>> {
    let length = data.first_chunk().map_or(0, |&length| u32::from_be_bytes(length));
    let mut rest = &data[HEADER..4 + length as usize];
    let mut features = Vec::new();
    while !rest.is_empty() {
        let (feature, others) = rest.split_at(HEAD + usize::from(rest[3]));
        features.push(feature.to_vec());
        rest = others;
    }
    features
}

/// Any fields that a response can be written from.
pub fn random_fields(rng: &mut Rng) -> Fields {
    let found = read(&response(&header(rng), &features(rng))).expect("a response");
    Fields {
        header: found.header,
        tper: found.tper.expect("a TPer feature"),
        key_per_io: found.key_per_io.expect("a Key Per I/O feature"),
    }
}

/// Up to five features, in half of the cases with a length that is wrong.
pub fn random_features(rng: &mut Rng) -> Vec<u8> {
    let mut features: Vec<Vec<u8>> = (0..rng.below(6)).map(|_| random_feature(rng)).collect();
    if rng.once_in(8) {
        damage_feature(rng, &mut features);
    }
    let mut data = response(&header(rng), &features);
    if rng.once_in(2) {
        damage_length(rng, &mut data);
    }
    data
}

fn random_feature(rng: &mut Rng) -> Vec<u8> {
    let code = match rng.below(8) {
        0..=2 => TPER,
        3..=5 => KEY_PER_IO,
        6 => rng.pick(&UNKNOWN),
        _ => rng.word() as u16,
    };
    let length = match rng.below(4) {
        0 => rng.byte(),
        1 => rng.pick(&[TPER_LENGTH, KEY_PER_IO_LENGTH]),
        _ => rng.pick(&LENGTHS),
    };
    feature(rng, code, length)
}

/// A length byte other than its feature has.
fn damage_feature(rng: &mut Rng, features: &mut [Vec<u8>]) {
    if features.is_empty() {
        return;
    }
    let at = rng.below(features.len());
    features[at][3] = match rng.below(3) {
        0 => features[at][3].wrapping_add(1),
        1 => features[at][3].wrapping_sub(1),
        _ => rng.pick(&LENGTHS),
    };
}

fn damage_length(rng: &mut Rng, data: &mut Vec<u8>) {
    let whole = data.len();
    match rng.below(6) {
        0 => data.truncate(rng.below(whole)),
        1 => data.resize(whole + 1 + rng.below(2 * HEADER), rng.byte()),
        2 => set_length(data, rng.pick(&HEADER_LENGTHS)),
        3 => end_at(data, whole - 2 + rng.below(5)),
        4 => end_at(data, HEADER - 4 + rng.below(whole - HEADER + 5)),
        // A head is cut, in the data or before its end.
        _ => {
            let more = 1 + rng.below(HEAD - 1);
            data.resize(whole + more + rng.below(2) * HEAD, rng.byte());
            end_at(data, whole + more);
        }
    }
}

/// Bytes without any plan behind a header whose length is at least near theirs.
pub fn random_bytes(rng: &mut Rng) -> Vec<u8> {
    let mut data = vec![0; HEADER + rng.below(4 * HEADER)];
    rng.fill(&mut data);
    if rng.once_in(2) {
        // Of these bytes many features come.
        data.iter_mut().for_each(|byte| *byte = rng.pick(&[0, 0, 0, 1, 3, 5, 0x0C, 0x2C]));
    }
    let whole = data.len();
    match rng.below(4) {
        0 => end_at(&mut data, HEADER - 2 + rng.below(whole - HEADER + 5)),
        1 => set_length(&mut data, rng.pick(&HEADER_LENGTHS)),
        _ => end_at(&mut data, whole),
    }
    data
}
