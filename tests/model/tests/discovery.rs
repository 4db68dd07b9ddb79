//! Level 0 Discovery: the response against the one written by hand, the writer field by field, the reader over bytes
//! that are no response of this drive.

mod bench;
#[allow(dead_code)]
#[path = "../src/bin/sessions/dice.rs"]
mod dice;

use bench::Bench;
use dice::Dice;
use model::discovery::{own, read, write, Fields, Found};
use model::lines::{self, discovery, hex, load, manage, power_cycle, set_features};
use model::numbers::RESPONSE;

const REFUSED: Result<Found, u16> = Err(0x0716);

/// The response of `tests/discovery`.
fn by_hand() -> String {
    let text = include_str!("../../discovery/response.txt");
    text.lines().filter(|line| !line.starts_with('#')).collect()
}

fn found(fields: &Fields) -> Found {
    let Fields { header, tper, key_per_io } = fields.clone();
    Found { header, tper: Some(tper), key_per_io: Some(key_per_io) }
}

#[test]
fn the_drive_answers_as_by_hand() {
    assert_eq!(by_hand().len(), 224);
    assert_eq!(hex(&write(&own())), by_hand());
    assert_eq!(read(&write(&own())), Ok(found(&own())));
    assert_eq!(Bench::new().say(discovery()), "0000".to_string() + &by_hand());
}

#[test]
fn state_and_marks_stay() {
    let mut bench = Bench::new();
    bench.accept(manage(1, 2));
    bench.accept(load(1, 0, "AA", 0x11));
    bench.accept(lines::write(1, 0, 0, 255));
    bench.accept(set_features(0x0B));
    let answer = "0000".to_string() + &by_hand();
    bench.keep(discovery(), &answer);
    bench.refuse("0C00", "0703");
    bench.accept(power_cycle());
    bench.keep(discovery(), &answer);
}

/// Gives one field a value, cut to the field's size.
type Set = fn(&mut Fields, u64);

fn flag(value: u64) -> bool {
    value & 1 == 1
}

/// Each field with its offset in the response and the bytes that hold it at its largest.
const HEADER_AND_TPER: [(usize, &[u8], Set); 9] = [
    (4, &[0xFF; 4], |f, v| f.header.revision = v as u32),
    (16, &[0xFF; 32], |f, v| f.header.vendor_specific = std::array::from_fn(|at| (v >> at) as u8)),
    (48 + 2, &[0xF0], |f, v| f.tper.version = (v & 15) as u8),
    (48 + 4, &[0x40], |f, v| f.tper.com_id_mgmt = flag(v)),
    (48 + 4, &[0x10], |f, v| f.tper.streaming = flag(v)),
    (48 + 4, &[0x08], |f, v| f.tper.buffer_mgmt = flag(v)),
    (48 + 4, &[0x04], |f, v| f.tper.ack_nack = flag(v)),
    (48 + 4, &[0x02], |f, v| f.tper.async_ = flag(v)),
    (48 + 4, &[0x01], |f, v| f.tper.sync = flag(v)),
];

const KEY_PER_IO: [(usize, &[u8], Set); 30] = [
    (64 + 2, &[0xF0], |f, v| f.key_per_io.version = (v & 15) as u8),
    (64 + 2, &[0x0F], |f, v| f.key_per_io.ssc_minor_version = (v & 15) as u8),
    (64 + 4, &[0xFF; 2], |f, v| f.key_per_io.protocol_01_base_com_id = v as u16),
    (64 + 6, &[0xFF; 2], |f, v| f.key_per_io.protocol_01_com_ids = v as u16),
    (64 + 8, &[0xFF; 2], |f, v| f.key_per_io.protocol_03_base_com_id = v as u16),
    (64 + 10, &[0xFF; 2], |f, v| f.key_per_io.protocol_03_com_ids = v as u16),
    (64 + 12, &[0xFF], |f, v| f.key_per_io.initial_pin = v as u8),
    (64 + 13, &[0xFF], |f, v| f.key_per_io.pin_on_revert = v as u8),
    (64 + 14, &[0xFF; 2], |f, v| f.key_per_io.admin_authorities = v as u16),
    (64 + 16, &[0x20], |f, v| f.key_per_io.replay_protection_enabled = flag(v)),
    (64 + 16, &[0x10], |f, v| f.key_per_io.replay_protection_supported = flag(v)),
    (64 + 16, &[0x08], |f, v| f.key_per_io.incorrect_key_detection = flag(v)),
    (64 + 16, &[0x04], |f, v| f.key_per_io.shared_tweak_key_required = flag(v)),
    (64 + 16, &[0x02], |f, v| f.key_per_io.scope = flag(v)),
    (64 + 16, &[0x01], |f, v| f.key_per_io.enabled = flag(v)),
    (64 + 17, &[0xFF; 2], |f, v| f.key_per_io.max_key_uid_length = v as u16),
    (64 + 19, &[0x01], |f, v| f.key_per_io.kmip = flag(v)),
    (64 + 21, &[0x04], |f, v| f.key_per_io.rsa_oaep = flag(v)),
    (64 + 21, &[0x02], |f, v| f.key_per_io.aes_gcm = flag(v)),
    (64 + 21, &[0x01], |f, v| f.key_per_io.aes_kw = flag(v)),
    (64 + 23, &[0x01], |f, v| f.key_per_io.aes_256_wrapping_key = flag(v)),
    (64 + 25, &[0x04], |f, v| f.key_per_io.rsa_4k_wrapping_key = flag(v)),
    (64 + 25, &[0x02], |f, v| f.key_per_io.rsa_3k_wrapping_key = flag(v)),
    (64 + 25, &[0x01], |f, v| f.key_per_io.rsa_2k_wrapping_key = flag(v)),
    (64 + 27, &[0x02], |f, v| f.key_per_io.pki_kek_transport = flag(v)),
    (64 + 27, &[0x01], |f, v| f.key_per_io.plaintext_kek_provisioning = flag(v)),
    (64 + 32, &[0xFF; 4], |f, v| f.key_per_io.key_encryption_keys = v as u32),
    (64 + 36, &[0xFF; 4], |f, v| f.key_per_io.key_tags = v as u32),
    (64 + 40, &[0xFF; 2], |f, v| f.key_per_io.key_tags_per_namespace = v as u16),
    (64 + 42, &[0xFF], |f, v| f.key_per_io.nonce_length = v as u8),
];

fn table() -> impl Iterator<Item = (usize, &'static [u8], Set)> {
    HEADER_AND_TPER.into_iter().chain(KEY_PER_IO)
}

/// A response whose fields are all zero.
fn zeros() -> [u8; RESPONSE] {
    let mut bytes = [0; RESPONSE];
    bytes[3] = 0x6C;
    bytes[48..52].copy_from_slice(&[0x00, 0x01, 0x00, 0x0C]);
    bytes[64..68].copy_from_slice(&[0x03, 0x05, 0x00, 0x2C]);
    bytes
}

fn random(dice: &mut Dice) -> Fields {
    let mut fields = Fields::default();
    table().for_each(|(_, _, set)| set(&mut fields, dice.roll()));
    fields
}

fn largest() -> Fields {
    let mut fields = Fields::default();
    table().for_each(|(_, _, set)| set(&mut fields, u64::MAX));
    fields
}

#[test]
fn each_field_at_its_largest_alone() {
    assert_eq!(write(&Fields::default()), zeros());
    for (row, (at, bytes, set)) in table().enumerate() {
        let mut fields = Fields::default();
        set(&mut fields, u64::MAX);
        let mut response = zeros();
        response[at..].iter_mut().zip(bytes).for_each(|(byte, more)| *byte |= more);
        assert_eq!(hex(&write(&fields)), hex(&response), "row {row}");
        assert_eq!(read(&response), Ok(found(&fields)), "row {row}");
    }
}

#[test]
fn numbers_are_big_endian() {
    let mut fields = Fields::default();
    fields.header.revision = 0x0102_0304;
    fields.key_per_io.protocol_01_base_com_id = 0x0506;
    fields.key_per_io.key_tags = 0x0708_090A;
    let response = write(&fields);
    assert_eq!(response[4..8], [1, 2, 3, 4]);
    assert_eq!(response[68..70], [5, 6]);
    assert_eq!(response[100..104], [7, 8, 9, 10]);
    assert_eq!(read(&response), Ok(found(&fields)));
}

#[test]
fn reserved_bits_are_not_looked_at() {
    let mut response = [0xFF; RESPONSE];
    response[..4].copy_from_slice(&[0x00, 0x00, 0x00, 0x6C]);
    response[48..52].copy_from_slice(&[0x00, 0x01, 0xFF, 0x0C]);
    response[64..68].copy_from_slice(&[0x03, 0x05, 0xFF, 0x2C]);
    assert_eq!(read(&response), Ok(found(&largest())));
}

#[test]
fn random_fields_whatever_stands_behind() {
    let mut dice = Dice::new(1);
    for _ in 0..500 {
        let fields = random(&mut dice);
        let mut data = write(&fields).to_vec();
        assert_eq!(read(&data), Ok(found(&fields)));
        data.extend((0..dice.below(60)).map(|_| dice.roll() as u8));
        assert_eq!(read(&data), Ok(found(&fields)));
    }
}

#[test]
fn every_cut_is_refused() {
    for response in [write(&own()), write(&largest())] {
        for length in 0..RESPONSE {
            assert_eq!(read(&response[..length]), REFUSED, "{length} bytes");
        }
    }
}

/// The drive's response with another length field.
fn of_length(length: u32) -> Vec<u8> {
    let mut data = write(&own()).to_vec();
    data[..4].copy_from_slice(&length.to_be_bytes());
    data
}

#[test]
fn the_length_field() {
    let Fields { header, tper, key_per_io } = own();
    for length in 0..=0x70 {
        let (tper, key_per_io) = (tper.clone(), key_per_io.clone());
        let (tper, key_per_io) = match length {
            0x2C => (None, None),
            0x3C => (Some(tper), None),
            0x6C => (Some(tper), Some(key_per_io)),
            _ => {
                assert_eq!(read(&of_length(length)), REFUSED, "{length:X}");
                continue;
            }
        };
        let found = Found { header: header.clone(), tper, key_per_io };
        assert_eq!(read(&of_length(length)), Ok(found), "{length:X}");
    }
    let far = [0x012C, 0x6C00, 0x002C_0000, 0x2C00_0000, 0x7FFF_FFFF, 0x8000_002C];
    for length in far.into_iter().chain(0xFFFF_FFFC..=0xFFFF_FFFF) {
        assert_eq!(read(&of_length(length)), REFUSED, "{length:X}");
    }
}

/// Where the length goes on past the two features, a third has to stand there.
#[test]
fn a_length_past_the_features() {
    let behind = |length, bytes: &[u8]| read(&[&of_length(length)[..], bytes].concat());
    for extra in 1..=4 {
        assert_eq!(behind(0x6C + extra, &[0; 3][..extra as usize - 1]), REFUSED);
    }
    assert_eq!(behind(0x6D, &[0; 4]), REFUSED);
    assert_eq!(behind(0x6E, &[0; 4]), REFUSED);
    assert_eq!(behind(0x6F, &[0; 4]), REFUSED);
    assert_eq!(behind(0x70, &[0; 4]), Ok(found(&own())));
    assert_eq!(behind(0x70, &[0, 0, 0, 1]), REFUSED);
    assert_eq!(behind(0x70, &[0, 0, 0, 1, 0]), REFUSED);
    assert_eq!(behind(0x71, &[0, 0, 0, 1, 0]), Ok(found(&own())));
}

/// A header of the drive's, its length that of the features behind it.
fn response(features: &[Vec<u8>]) -> Vec<u8> {
    let features = features.concat();
    let mut data = of_length(0x2C + features.len() as u32)[..48].to_vec();
    data.extend(features);
    data
}

/// A feature as it was written, brought to a length: cut, or filled up with bytes that are not zero.
fn resized(feature: &[u8], length: u8) -> Vec<u8> {
    let mut feature = feature.to_vec();
    feature.resize(4 + usize::from(length), 0xEE);
    feature[3] = length;
    feature
}

fn tper(fields: &Fields, length: u8) -> Vec<u8> {
    resized(&write(fields)[48..64], length)
}

fn key_per_io(fields: &Fields, length: u8) -> Vec<u8> {
    resized(&write(fields)[64..], length)
}

fn unknown(code: [u8; 2], length: u8) -> Vec<u8> {
    resized(&[code[0], code[1], 0x10, 0], length)
}

/// What is found with the drive's header and these features.
fn only(tper: Option<&Fields>, key_per_io: Option<&Fields>) -> Result<Found, u16> {
    Ok(Found {
        header: own().header,
        tper: tper.map(|fields| fields.tper.clone()),
        key_per_io: key_per_io.map(|fields| fields.key_per_io.clone()),
    })
}

#[test]
fn a_feature_missing_or_too_short_is_absent() {
    let fields = own();
    assert_eq!(read(&response(&[])), only(None, None));
    assert_eq!(read(&response(&[tper(&fields, 12)])), only(Some(&fields), None));
    assert_eq!(read(&response(&[key_per_io(&fields, 44)])), only(None, Some(&fields)));
    for length in 0..=255 {
        let (long_tper, long_key_per_io) = (length >= 12, length >= 44);
        let tper = tper(&fields, length);
        let data = response(&[tper, key_per_io(&fields, 44)]);
        assert_eq!(read(&data), only(long_tper.then_some(&fields), Some(&fields)));
        let key_per_io = key_per_io(&fields, length);
        let data = response(&[key_per_io, self::tper(&fields, 12)]);
        assert_eq!(read(&data), only(Some(&fields), long_key_per_io.then_some(&fields)));
    }
}

#[test]
fn of_two_the_first_counts() {
    let (one, two) = (own(), largest());
    let between = unknown([0x04, 0x02], 5);
    let (short, exact, long) = (11, 12, 200);
    for (first, second) in [(short, exact), (short, long), (short, short), (0, exact)] {
        let data = response(&[tper(&one, first), between.clone(), tper(&two, second)]);
        assert_eq!(read(&data), only(None, None));
    }
    for (first, second) in [(exact, short), (long, short), (exact, exact), (long, exact)] {
        let data = response(&[tper(&one, first), between.clone(), tper(&two, second)]);
        assert_eq!(read(&data), only(Some(&one), None));
    }
    let (short, exact, long) = (43, 44, 200);
    for (first, second) in [(short, exact), (short, long), (short, short), (0, exact)] {
        let data = response(&[key_per_io(&one, first), between.clone(), key_per_io(&two, second)]);
        assert_eq!(read(&data), only(None, None));
    }
    for (first, second) in [(exact, short), (long, short), (exact, exact), (long, exact)] {
        let data = response(&[key_per_io(&one, first), between.clone(), key_per_io(&two, second)]);
        assert_eq!(read(&data), only(None, Some(&one)));
    }
}

#[test]
fn the_two_features_in_either_order() {
    let fields = largest();
    let data = response(&[key_per_io(&fields, 44), tper(&fields, 12)]);
    assert_eq!(read(&data), only(Some(&fields), Some(&fields)));
}

#[test]
fn unknown_features_are_skipped() {
    let fields = own();
    let known = [tper(&fields, 12), key_per_io(&fields, 44)];
    let codes = [0x0000, 0x0002, 0x0005, 0x0100, 0x0101, 0x0301, 0x0304, 0x0405, 0x0503, 0xFFFF];
    for code in codes.map(u16::to_be_bytes) {
        for length in [0, 1, 12, 44, 255] {
            for at in 0..=2 {
                let mut features = known.to_vec();
                features.insert(at, unknown(code, length));
                assert_eq!(read(&response(&features)), only(Some(&fields), Some(&fields)));
            }
            let others = vec![unknown(code, length); 3];
            assert_eq!(read(&response(&others)), only(None, None));
        }
    }
}

/// So many that the length needs three of its bytes.
#[test]
fn many_unknown_features_are_skipped() {
    let fields = own();
    for length in [0, 255] {
        let mut features = vec![unknown([0x04, 0x02], length); 300];
        features.insert(150, tper(&fields, 12));
        features.push(key_per_io(&fields, 44));
        assert_eq!(read(&response(&features)), only(Some(&fields), Some(&fields)));
        features.push(vec![0]);
        assert_eq!(read(&response(&features)), REFUSED);
    }
}

/// The bytes of an unknown feature may look like a known one.
#[test]
fn the_inside_of_a_feature_is_no_feature() {
    let fields = largest();
    let inside = [vec![0x04, 0x02, 0x10, 64], tper(&fields, 12), key_per_io(&fields, 44)];
    assert_eq!(read(&response(&[inside.concat()])), only(None, None));
}

/// Every kind of last feature, with the header's length as far as its bytes go and one byte less or more.
#[test]
fn a_last_feature_that_runs_past_the_end() {
    let fields = own();
    let known = [tper(&fields, 12), key_per_io(&fields, 44)];
    let lasts = [
        known[0].clone(),
        known[1].clone(),
        unknown([0x04, 0x02], 0),
        unknown([0x04, 0x02], 1),
        unknown([0x04, 0x02], 255),
    ];
    for last in lasts {
        let features = [known.to_vec(), vec![last.clone()]].concat();
        assert_eq!(read(&response(&features)), only(Some(&fields), Some(&fields)));
        for left in 1..last.len() {
            let cut = [known.to_vec(), vec![last[..left].to_vec()]].concat();
            assert_eq!(read(&response(&cut)), REFUSED, "{left} bytes of {last:02X?}");
            let mut behind = response(&cut);
            behind.extend_from_slice(&last[left..]);
            assert_eq!(read(&behind), REFUSED, "{left} bytes of {last:02X?}, then the rest");
        }
        if last[3] < 255 {
            let mut longer = features;
            longer[2][3] += 1;
            assert_eq!(read(&response(&longer)), REFUSED, "one too many: {last:02X?}");
            let mut behind = response(&longer);
            behind.extend([0; 8]);
            assert_eq!(read(&behind), REFUSED, "one too many, then zeros: {last:02X?}");
        }
    }
}

/// Lists of features of all lengths, whole or with the last one cut.
#[test]
fn random_lists() {
    let mut dice = Dice::new(2);
    let mut seen = [0; 5];
    for _ in 0..2000 {
        let (mut of_tper, mut of_key_per_io) = (None, None);
        let mut features = Vec::new();
        for _ in 0..dice.below(6) {
            let fields = random(&mut dice);
            let length = dice.pick(&[0, 1, 11, 12, 13, 43, 44, 45, 255]);
            features.push(match dice.below(3) {
                0 => {
                    of_tper.get_or_insert((length >= 12).then_some(fields.clone()));
                    tper(&fields, length)
                }
                1 => {
                    of_key_per_io.get_or_insert((length >= 44).then_some(fields.clone()));
                    key_per_io(&fields, length)
                }
                _ => unknown([dice.roll() as u8, 0x07], length),
            });
        }
        let (of_tper, of_key_per_io) = (of_tper.flatten(), of_key_per_io.flatten());
        let mut expected = only(of_tper.as_ref(), of_key_per_io.as_ref());
        if !features.is_empty() && dice.once_in(4) {
            let last = features.last_mut().unwrap();
            last.truncate(1 + dice.below(last.len() - 1));
            expected = REFUSED;
        }
        seen[match &expected {
            Err(_) => 0,
            Ok(found) => {
                1 + 2 * usize::from(found.tper.is_some()) + usize::from(found.key_per_io.is_some())
            }
        }] += 1;
        assert_eq!(read(&response(&features)), expected);
    }
    assert!(seen.iter().all(|&times| times > 50), "{seen:?}");
}

/// Any bytes at all, half of them with a length field that is right.
#[test]
fn noise() {
    let mut dice = Dice::new(3);
    let mut refused = 0;
    for _ in 0..20_000 {
        let mut data: Vec<u8> = (0..dice.below(200)).map(|_| dice.roll() as u8).collect();
        if data.len() >= 4 && dice.once_in(2) {
            let length = (data.len() - 4) as u32;
            data[..4].copy_from_slice(&length.to_be_bytes());
        }
        match read(&data) {
            Err(number) => {
                assert_eq!(number, 0x0716);
                refused += 1;
            }
            Ok(found) => assert_eq!(found.header.revision.to_be_bytes(), data[4..8]),
        }
    }
    assert!((10_000..20_000).contains(&refused), "{refused}");
}
