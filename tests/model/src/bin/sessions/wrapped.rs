//! Wrapped loads as a person would try them: the key of RFC 3394, what is wrapped otherwise, and that a wrapped load is
//! a load of the key inside.

use model::lines::*;
use model::numbers::{KEK, KEY, PROGRAM_KEK, WRAPPED};
use model::wrap::{wrap, wrap_behind, INTEGRITY};

use crate::folder::{Folder, Lines};

const A16: &str = "A0A1A2A3A4A5A6A7A8A9AAABACADAEAF";

// RFC 3394, section 4.6, whose key-encryption key is the program's.
const RFC_KEY: &str = "00112233445566778899AABBCCDDEEFF000102030405060708090A0B0C0D0E0F";
const RFC_WRAPPED: &str =
    "28C9F404C4B810F4CBCCB35CFB87F8263F5786E2D80ED326CBC7F0E71A99F43BFB988B9B7A02DD21";

/// What the key wrap with padding (RFC 5649, KWP of SP 800-38F) has before a key of 32 bytes; that also makes 40.
pub const PADDED: u64 = 0xA659_59A6_0000_0020;

pub fn add(folder: &mut Folder) {
    published(folder);
    one_bit(folder);
    every_bit(folder);
    another_kek(folder);
    another_value(folder);
    every_bit_of_kek_and_value(folder);
    parts_elsewhere(folder);
    not_wrapped(folder);
    the_key_inside(folder);
    other_loads(folder);
    every_key_byte(folder);
    two_namespaces(folder);
    replaced(folder);
    gone_and_anew(folder);
    refused_changes_nothing(folder);
    keys(folder);
    key_uids(folder);
    namespaces_and_tags(folder);
    digits(folder);
}

/// The key of bytes 11 as it is carried.
fn wrapped_11() -> [u8; WRAPPED] {
    wrap(&PROGRAM_KEK, &[0x11; KEY])
}

/// A load into the slot and under the KeyUID that most of these sessions are about.
fn line(wrapped: &[u8]) -> String {
    wrapped_frame(1, 0, "AA", wrapped)
}

fn flipped<const N: usize>(mut bytes: [u8; N], bit: usize) -> [u8; N] {
    bytes[bit / 8] ^= 0x80 >> (bit % 8);
    bytes
}

fn published(folder: &mut Folder) {
    let wrapped = format!("0E01000001AA{RFC_WRAPPED}");
    let last_digit = &RFC_KEY[..63];
    folder.add(
        "wrapped-key-of-rfc-3394",
        [
            (manage(1, 3), "0000"),
            (wrapped.clone(), "0000"),
            (format!("0301010001AA{last_digit}E"), "070C"),
            (format!("0301010001AA{RFC_KEY}"), "0000"),
            (write(1, 0, 7, 0), "0000"),
            (read(1, 1, 7, 0), "0000"),
            (load(1, 2, "BB", 0x22), "0000"),
            (read(1, 2, 7, 0), "0028"),
            (wrapped.clone(), "0709"),
            (clear_one(1, 0), "0000"),
            (read(1, 0, 7, 0), "0025"),
            (wrapped, "0000"),
            (read(1, 0, 7, 0), "0000"),
        ],
    );
}

/// The first and the last bit of the first eight bytes, and of the wrapped key.
fn one_bit(folder: &mut Folder) {
    let other = |bit| line(&flipped(wrapped_11(), bit));
    folder.add(
        "wrapped-with-one-bit-otherwise",
        [
            (manage(1, 1), "0000"),
            (other(0), "0710"),
            (other(63), "0710"),
            (other(64), "0710"),
            (other(319), "0710"),
            (clear_one(1, 0), "070A"),
            (line(&wrapped_11()), "0000"),
            (clear_one(1, 0), "0000"),
        ],
    );
}

/// Sessions of lines that are all refused 07 10, and then of the true load.
fn all_refused(folder: &mut Folder, name: &str, lines: impl Iterator<Item = String>) {
    let managed = vec![(manage(1, 1), "0000")];
    let proof = vec![(clear_one(1, 0), "070A"), (line(&wrapped_11()), "0000")];
    let steps = lines.map(|line| vec![(line, "0710")]).collect();
    folder.add_in_parts(name, managed, steps, proof);
}

fn every_bit(folder: &mut Folder) {
    let others = (0..8 * WRAPPED).map(|bit| line(&flipped(wrapped_11(), bit)));
    all_refused(folder, "wrapped-with-each-bit-otherwise", others);
}

fn another_kek(folder: &mut Folder) {
    let with = |kek: [u8; KEK]| line(&wrap(&kek, &[0x11; KEY]));
    let mut backward = PROGRAM_KEK;
    backward.reverse();
    folder.add(
        "wrapped-with-another-key-encryption-key",
        [
            (manage(1, 1), "0000"),
            (with([0x00; KEK]), "0710"),
            (with([0x11; KEK]), "0710"),
            (with(backward), "0710"),
            (with(flipped(PROGRAM_KEK, 255)), "0710"),
            (clear_one(1, 0), "070A"),
            (with(PROGRAM_KEK), "0000"),
            (clear_one(1, 0), "0000"),
        ],
    );
}

fn another_value(folder: &mut Folder) {
    let behind = |first| line(&wrap_behind(&PROGRAM_KEK, first, &[0x11; KEY]));
    folder.add(
        "wrapped-behind-another-integrity-value",
        [
            (manage(1, 1), "0000"),
            (behind(PADDED), "0710"),
            (behind(0x0000_0000_0000_0000), "0710"),
            (behind(0xA6A6_A6A6_0000_0000), "0710"),
            (behind(0x0000_0000_A6A6_A6A6), "0710"),
            (behind(0xA6A6_A6A6_A6A6_A6A7), "0710"),
            (behind(0x26A6_A6A6_A6A6_A6A6), "0710"),
            (clear_one(1, 0), "070A"),
            (behind(0xA6A6_A6A6_A6A6_A6A6), "0000"),
            (clear_one(1, 0), "0000"),
        ],
    );
}

fn every_bit_of_kek_and_value(folder: &mut Folder) {
    let kek = |bit| line(&wrap(&flipped(PROGRAM_KEK, bit), &[0x11; KEY]));
    let name = "wrapped-with-each-bit-of-the-key-encryption-key-otherwise";
    all_refused(folder, name, (0..8 * KEK).map(kek));
    let behind = |first| line(&wrap_behind(&PROGRAM_KEK, first, &[0x11; KEY]));
    let name = "wrapped-with-each-bit-of-the-integrity-value-otherwise";
    all_refused(folder, name, (0..64).map(|bit| behind(INTEGRITY ^ 1 << bit)));
}

/// Each two of the five parts of eight bytes exchanged, all bytes the other way round, and the first part last.
fn parts_elsewhere(folder: &mut Folder) {
    let pairs = (0..5).flat_map(|one| (one + 1..5).map(move |two| (one, two)));
    let swapped = pairs.map(|(one, two)| {
        let mut parts = wrapped_11().as_chunks::<8>().0.to_vec();
        parts.swap(one, two);
        line(parts.as_flattened())
    });
    let mut backward = wrapped_11();
    backward.reverse();
    let behind = [&wrapped_11()[8..], &wrapped_11()[..8]].concat();
    let others = [line(&backward), line(&behind)];
    all_refused(folder, "wrapped-parts-exchanged", swapped.chain(others));
}

/// A bare key, and wrapped keys where none belong.
fn not_wrapped(folder: &mut Folder) {
    let wrapped = wrapped_11();
    let in_the_clear = [&INTEGRITY.to_be_bytes(), &[0x11; KEY][..]].concat();
    folder.add(
        "wrapped-load-of-a-bare-key",
        [
            (manage(1, 1), "0000"),
            (line(&[0x11; KEY]), "0703"),
            (line(&in_the_clear), "0710"),
            (line(&[0x11; WRAPPED]), "0710"),
            (line(&[0x00; WRAPPED]), "0710"),
            (line(&[0xA6; WRAPPED]), "0710"),
            (format!("03{}", &line(&wrapped)[2..]), "0703"),
            (format!("0401000001AA01AA{}", hex(&wrapped)), "0703"),
            (format!("0D010000{}", hex(&wrapped)), "0717"),
            (clear_one(1, 0), "070A"),
            (line(&wrapped), "0000"),
        ],
    );
}

/// Its first 32 bytes and its last 32 are other keys than the one inside.
fn the_key_inside(folder: &mut Folder) {
    let wrapped = wrapped_11();
    let (first, last) = (wrapped.first_chunk().expect("32"), wrapped.last_chunk().expect("32"));
    folder.add(
        "wrapped-key-inside-is-what-is-loaded",
        [
            (manage(1, 5), "0000"),
            (line(&wrapped), "0000"),
            (load_key(1, 1, "AA", first), "070C"),
            (load_key(1, 1, "AA", last), "070C"),
            (load(1, 1, "AA", 0x11), "0000"),
            (wrapped_load(1, 2, "AA", 0x11), "0000"),
            (wrapped_load(1, 3, "AA", 0x12), "070C"),
            (load_key(1, 3, "BB", first), "0000"),
            (wrapped_load(1, 4, "BB", 0x11), "070C"),
            (wrapped_frame(1, 4, "BB", &wrap(&PROGRAM_KEK, first)), "0000"),
        ],
    );
}

fn other_loads(folder: &mut Folder) {
    folder.add(
        "wrapped-and-other-loads-share-the-rule-of-one-key",
        [
            (manage(1, 4), "0000"),
            (manage(3, 2), "0000"),
            (wrapped_load(1, 0, A16, 0x11), "0000"),
            (load(3, 0, A16, 0x12), "070C"),
            (message_load(3, 0, A16, 0x12), "070C"),
            (wrapped_load(3, 0, A16, 0x12), "070C"),
            (load(1, 1, "BB", 0x22), "0000"),
            (wrapped_load(3, 0, "BB", 0x23), "070C"),
            (wrapped_load(3, 0, "BB", 0x22), "0000"),
            (message_load(1, 2, "CC", 0x33), "0000"),
            (wrapped_load(3, 1, "CC", 0x32), "070C"),
            (wrapped_load(3, 1, "CC", 0x33), "0000"),
            (replace(1, 1, "BB", A16, 0x12), "070C"),
            (replace(1, 1, "BB", A16, 0x11), "0000"),
            (wrapped_load(1, 3, "BB", 0x23), "070C"),
            (clear_one(3, 0), "0000"),
            (wrapped_load(1, 3, "BB", 0x23), "0000"),
        ],
    );
}

/// One wrong byte of the key inside changes all of the wrapped one.
fn every_key_byte(folder: &mut Folder) {
    let changed = |byte: usize| {
        let mut key = [0x11; KEY];
        key[byte] = 0x10;
        wrapped_frame(1, 1, "AA", &wrap(&PROGRAM_KEK, &key))
    };
    let setup = [(manage(1, 2), "0000"), (load(1, 0, "AA", 0x11), "0000")];
    let refused = (0..KEY).map(|byte| (changed(byte), "070C"));
    let right = [(wrapped_load(1, 1, "AA", 0x11), "0000")];
    folder.add("wrapped-conflict-in-every-key-byte", setup.into_iter().chain(refused).chain(right));
}

fn two_namespaces(folder: &mut Folder) {
    folder.add(
        "wrapped-one-key-in-every-namespace",
        [
            (manage(1, 1), "0000"),
            (manage(2, 1), "0000"),
            (manage(3, 1), "0000"),
            (manage(4, 1), "0000"),
            (wrapped_load(1, 0, "AA", 0x11), "0000"),
            (wrapped_load(4, 0, "AA", 0x12), "070C"),
            (wrapped_load(4, 0, "AA", 0x11), "0000"),
            (load(2, 0, "AA", 0x11), "0000"),
            (message_load(3, 0, "AA", 0x11), "0000"),
            (write(4, 0, 0, 0), "0000"),
            (read(4, 0, 0, 0), "0000"),
            (read(1, 0, 0, 0), "0000"),
            (clear_one(1, 0), "0000"),
            (wrapped_load(1, 0, "AA", 0x12), "070C"),
            (clear_all(4), "0000"),
            (release(2), "0000"),
            (clear_one(3, 0), "0000"),
            (wrapped_load(1, 0, "AA", 0x12), "0000"),
        ],
    );
}

fn replaced(folder: &mut Folder) {
    folder.add(
        "wrapped-load-replaced",
        [
            (manage(1, 2), "0000"),
            (wrapped_load(1, 0, "AA", 0x11), "0000"),
            (write(1, 0, 0, 0), "0000"),
            (replace(1, 0, "AB", "BB", 0x22), "070B"),
            (replace(1, 0, "AA", "AA", 0x12), "070C"),
            (replace(1, 0, "AA", "AA", 0x11), "0000"),
            (read(1, 0, 0, 0), "0000"),
            (replace(1, 0, "AA", "BB", 0x22), "0000"),
            (read(1, 0, 0, 0), "0028"),
            (wrapped_load(1, 1, "BB", 0x23), "070C"),
            (wrapped_load(1, 1, "BB", 0x22), "0000"),
            (wrapped_load(1, 0, "AA", 0x12), "0709"),
        ],
    );
}

fn gone_and_anew(folder: &mut Folder) {
    folder.add(
        "wrapped-loads-gone-and-loaded-anew",
        [
            (manage(4, 128), "0000"),
            (wrapped_load(4, 127, "AA", 0x11), "0000"),
            (write(4, 127, 0, 9), "0000"),
            (controller_reset(), "0000"),
            (read(4, 127, 0, 9), "0000"),
            (power_cycle(), "0000"),
            (read(4, 127, 0, 9), "0025"),
            (wrapped_load(4, 127, "AA00", 0x11), "0000"),
            (read(4, 127, 0, 9), "0028"),
            (clear_one(4, 127), "0000"),
            (wrapped_load(4, 127, "AA", 0x22), "0000"),
            (read(4, 127, 0, 9), "0000"),
            (release(4), "0000"),
            (wrapped_load(4, 127, "AA", 0x11), "0706"),
            (manage(4, 127), "0000"),
            (wrapped_load(4, 127, "AA", 0x11), "0025"),
            (wrapped_load(4, 126, "AA", 0x11), "0000"),
        ],
    );
}

fn refused_changes_nothing(folder: &mut Folder) {
    let spoilt = |tag, uid| wrapped_frame(1, tag, uid, &flipped(wrapped_11(), 100));
    folder.add(
        "wrapped-refused-changes-nothing",
        [
            (manage(1, 2), "0000"),
            (wrapped_load(1, 0, "AA", 0x11), "0000"),
            (write(1, 0, 0, 0), "0000"),
            (spoilt(0, "BB"), "0710"),
            (spoilt(1, "BB"), "0710"),
            (wrapped_load(1, 1, "AA", 0x12), "070C"),
            (wrapped_load(1, 2, "BB", 0x22), "0025"),
            (wrapped_load(2, 0, "BB", 0x22), "0706"),
            (wrapped_load(5, 0, "BB", 0x22), "000B"),
            (read(1, 0, 0, 0), "0000"),
            (clear_one(1, 1), "070A"),
            (load(1, 1, "BB", 0x22), "0000"),
            (wrapped_load(1, 1, "BB", 0x22), "0709"),
            (get_features(), "000012000000"),
        ],
    );
}

/// Keys of other bytes than one, and the key-encryption key as a key.
fn keys(folder: &mut Folder) {
    let alike = [[0x00; KEY], [0xA6; KEY], [0xFF; KEY], PROGRAM_KEK];
    let one_bit = [0, 63, 64, 127, 128, 191, 192, 255].map(|bit| flipped([0x00; KEY], bit));
    let setup = [(manage(2, 2), "0000")];
    let steps = alike.into_iter().chain(one_bit).flat_map(|key| {
        [
            (wrapped_frame(2, 0, "AA", &wrap(&PROGRAM_KEK, &key)), "0000"),
            (load_key(2, 1, "AA", &flipped(key, 255)), "070C"),
            (load_key(2, 1, "AA", &key), "0000"),
            (clear_all(2), "0000"),
        ]
    });
    folder.add("wrapped-keys-of-many-bytes", setup.into_iter().chain(steps));
}

fn key_uids(folder: &mut Folder) {
    let managed = [(manage(1, 32), "0000")];
    let load_of = |length: usize| {
        let (uid, key) = (&A16[..2 * length], length as u8);
        wrapped_load(1, length as u16, uid, key)
    };
    let loads = (1..=16).map(|length| (load_of(length), "0000"));
    let old = (1..=16)
        .map(|length: usize| (replace(1, length as u16, &A16[..2 * length], "BB", 0x22), "0000"));
    folder.add("wrapped-key-uid-of-1-to-16", managed.into_iter().chain(loads).chain(old));
    folder.add(
        "wrapped-key-uid-of-0-and-17",
        [
            (manage(1, 1), "0000"),
            (wrapped_load(1, 0, "", 0x11), "0704"),
            (wrapped_load(1, 0, &format!("{A16}B0"), 0x11), "0704"),
            (wrapped_load(1, 0, &"A5".repeat(41), 0x11), "0704"),
            (clear_one(1, 0), "070A"),
            (wrapped_load(1, 0, A16, 0x11), "0000"),
            (clear_one(1, 0), "0000"),
        ],
    );
}

fn namespaces_and_tags(folder: &mut Folder) {
    let managed = (1..=4).map(|namespace| (manage(namespace, 64), "0000"));
    let bad = [0, 5, 6, 127, 128, 129, 252, 255];
    let bad = bad.map(|namespace| (wrapped_load(namespace, 0, "AA", 0x11), "000B"));
    let above = [64, 65, 128, 255, 256, 319, 32768, 65535];
    let above = above.map(|tag| (wrapped_load(3, tag, "AA", 0x11), "0025"));
    let good = (1..=4).map(|namespace| (wrapped_load(namespace, 63, "AA", 0x11), "0000"));
    let reads = (1..=4).map(|namespace| (read(namespace, 63, 0, 0), "0000"));
    let lines: Lines = managed.chain(bad).chain(above).chain(good).chain(reads).collect();
    folder.add("wrapped-namespaces-and-tags", lines);
}

fn digits(folder: &mut Folder) {
    let good = wrapped_load(1, 0, "AA", 0x11);
    assert_eq!(good.len(), 92);
    folder.add(
        "wrapped-digits",
        [
            (manage(1, 1), "0000"),
            (good.to_lowercase(), "0701030100"),
            (good[..91].to_string(), "0701040000"),
            (good[..91].to_string() + "g", "0701035B00"),
            (good[..90].to_string(), "0703"),
            (format!("{good}0"), "0701040000"),
            (format!("{good}00"), "0703"),
            (clear_one(1, 0), "070A"),
            (good.clone(), "0000"),
        ],
    );
    let last = format!("{}\n{}", manage(1, 1), good);
    folder.raw("wrapped-last-without-line-feed", last, "0000\n0000\n");
    let split = format!("{}\n{}\n{}\n", manage(1, 1), &good[..46], &good[46..]);
    folder.raw("wrapped-in-two-lines", split, "0000\n0703\n0702\n");
}
