//! The paper's worked session and its examples P1 to P10.

mod bench;

use bench::Bench;
use model::lines::*;
use model::numbers::{PROGRAM_KEK, STORE};
use model::Drive;

const U16: &str = "000102030405060708090A0B0C0D0E0F";

#[test]
fn worked_session() {
    let key = "1".repeat(64);
    let text = format!("010102\n0301000001AA{key}\n05010100\n09\n0B01\n05010000\n");
    let answers = b"0000\n0000\n070A\n000012000000\n0000\n070A\n";
    let mut marks = [0xFF; STORE];
    let (number, mut drive) = Drive::start(&PROGRAM_KEK, &mut marks);
    let mut out = [b'~'; 6 * 13];
    assert_eq!(number, 0);
    let result = drive.session(&mut marks, text.as_bytes(), &mut out);
    assert_eq!(result, (0, 6, answers.len()));
    assert_eq!(out[..answers.len()], answers[..]);
    assert!(out[answers.len()..].iter().all(|&byte| byte == b'~'));
}

#[test]
fn p1_tag_count() {
    let mut bench = Bench::new();
    bench.refuse(manage(1, 129), "0707");
    bench.accept(manage(1, 128));
}

#[test]
fn p2_pool() {
    let mut bench = Bench::new();
    bench.accept(manage(1, 128));
    bench.accept(manage(2, 128));
    bench.refuse(manage(3, 1), "0708");
    bench.accept(release(1));
    bench.accept(manage(3, 1));
}

#[test]
fn p3_last_block() {
    let mut bench = Bench::new();
    bench.accept(read(1, 0, 255, 0));
    bench.refuse(read(1, 0, 255, 1), "0080");
}

#[test]
fn p4_first_block_wraps() {
    let mut bench = Bench::new();
    bench.refuse(read(1, 0, u64::MAX, 0), "0080");
}

#[test]
fn p5_maximum_key_tag() {
    let mut bench = Bench::new();
    bench.accept(manage(1, 4));
    bench.accept(load(1, 3, "AA", 0x11));
    bench.accept(read(1, 3, 0, 0));
    bench.refuse(load(1, 4, "BB", 0x22), "0025");
    bench.refuse(read(1, 4, 0, 0), "0025");
}

#[test]
fn p6_one_key_uid_in_two_slots() {
    let mut bench = Bench::new();
    bench.accept(manage(1, 3));
    bench.accept(load(1, 0, "AA", 0x11));
    bench.accept(load(1, 1, "AA", 0x11));
    bench.refuse(load(1, 2, "AA", 0x12), "070C");
}

#[test]
fn p7_replace_with_its_own_key_uid() {
    let mut bench = Bench::new();
    bench.accept(manage(1, 1));
    bench.accept(load(1, 0, "AA", 0x11));
    bench.refuse(replace(1, 0, "AA", "AA", 0x12), "070C");
}

#[test]
fn p8_wrong_key_after_power_cycle() {
    let mut bench = Bench::new();
    bench.accept(manage(1, 1));
    bench.accept(load(1, 0, "AA", 0x11));
    bench.accept(write(1, 0, 0, 0));
    bench.accept(power_cycle());
    bench.accept(load(1, 0, "BB", 0x22));
    bench.refuse(read(1, 0, 0, 0), "0028");
}

#[test]
fn p9_boot_locks() {
    let mut bench = Bench::new();
    bench.accept(set_features(0x0B));
    assert_eq!(bench.drive.locks, [3, 1]);
    bench.refuse(set_features(0x09), "010E");
    assert_eq!(bench.say(get_features()), "00000B000000");
}

#[test]
fn p10_key_uid_length() {
    let mut bench = Bench::new();
    bench.accept(manage(1, 1));
    bench.refuse(load(1, 0, &format!("{U16}10"), 0x11), "0704");
    bench.accept(load(1, 0, U16, 0x11));
}
