//! What accepted frames do to state and marks, byte for byte.

mod bench;

use bench::Bench;
use model::lines::*;
use model::numbers::{BLOCKS, MARK, PROGRAM_KEK, STORE};
use model::Drive;

const U9: &str = "A0A1A2A3A4A5A6A7A8";
const U16: &str = "A0A1A2A3A4A5A6A7A8A9AAABACADAEAF";

#[test]
fn a_slot_holds_its_key_padded() {
    let mut bench = Bench::new();
    bench.accept(manage(2, 2));
    bench.accept(load(2, 1, "AABB", 0x11));
    let slot = &bench.drive.keys[(128 + 1) * 49..][..49];
    assert_eq!(slot[..3], [2, 0xAA, 0xBB]);
    assert_eq!(slot[3..17], [0; 14]);
    assert_eq!(slot[17..], [0x11; 32]);
    bench.accept(replace(2, 1, "AABB", "CC", 0x22));
    let slot = &bench.drive.keys[(128 + 1) * 49..][..49];
    assert_eq!(slot[..3], [1, 0xCC, 0]);
    assert_eq!(slot[17..], [0x22; 32]);
    bench.accept(clear_one(2, 1));
    assert!(bench.drive.keys.iter().all(|&byte| byte == 0));
}

#[test]
fn the_first_and_the_last_slot() {
    let mut bench = Bench::new();
    assert_eq!(bench.drive.keys.len(), 25_088);
    assert_eq!(bench.drive.to_image().len(), 25_126);
    bench.accept(manage(1, 128));
    bench.accept(manage(4, 128));
    bench.accept(load(1, 0, U16, 0x11));
    bench.accept(load(1, 127, U9, 0x22));
    bench.accept(load(4, 0, U9, 0x22));
    bench.accept(load(4, 127, U16, 0x11));
    let keys = &bench.drive.keys;
    for (start, length) in [(0, 16), (127 * 49, 9), (3 * 128 * 49, 9), (25_088 - 49, 16)] {
        assert_eq!(keys[start..start + 2], [length, 0xA0]);
    }
    assert_eq!(keys[25_088 - 32..], [0x11; 32]);
    assert_eq!(keys[49..127 * 49], [0; 126 * 49]);
    assert_eq!(keys[128 * 49..3 * 128 * 49], [0; 2 * 128 * 49]);
}

#[test]
fn a_write_marks_the_covered_blocks_only() {
    let mut bench = Bench::new();
    bench.accept(manage(3, 1));
    bench.accept(load(3, 0, U9, 0x11));
    bench.accept(write(3, 0, 10, 1));
    let mut marks = [0; STORE];
    for block in [10, 11] {
        let mark = &mut marks[(2 * 256 + block) * 17..][..17];
        mark[..10].copy_from_slice(&[9, 0xA0, 0xA1, 0xA2, 0xA3, 0xA4, 0xA5, 0xA6, 0xA7, 0xA8]);
    }
    assert_eq!(bench.marks, marks);
}

#[test]
fn an_unmanaged_write_leaves_no_mark() {
    let mut bench = Bench::new();
    bench.accept(with(&write(4, 9, 0, 255), 50, 0));
    assert_eq!(bench.marks, [0; STORE]);
    assert_eq!(bench.drive, Drive::fresh(&PROGRAM_KEK));
}

#[test]
fn release_takes_its_own_marks_and_slots_only() {
    let mut bench = Bench::new();
    for namespace in 1..=4 {
        bench.accept(manage(namespace, 64));
        bench.accept(load(namespace, 63, "AA", 0x11));
        bench.accept(write(namespace.into(), 63, 0, 255));
    }
    let (drive, marks) = (bench.drive.clone(), bench.marks.clone());
    bench.accept(release(2));
    let (start, end) = (BLOCKS * MARK, 2 * BLOCKS * MARK);
    assert_eq!(bench.marks[..start], marks[..start]);
    assert_eq!(bench.marks[start..end], [0; BLOCKS * MARK]);
    assert_eq!(bench.marks[end..], marks[end..]);
    assert_eq!(bench.drive.counts, [64, 0, 64, 64]);
    assert_eq!(bench.drive.keys[..128 * 49], drive.keys[..128 * 49]);
    assert_eq!(bench.drive.keys[128 * 49..256 * 49], [0; 128 * 49]);
    assert_eq!(bench.drive.keys[256 * 49..], drive.keys[256 * 49..]);
}

#[test]
fn every_slot_is_emptied() {
    let empties = [vec![power_cycle()], [2, 4].map(clear_all).into(), [2, 4].map(release).into()];
    for lines in empties {
        let mut bench = Bench::new();
        for namespace in [2, 4] {
            bench.accept(manage(namespace, 128));
            for tag in 0..128 {
                bench.accept(load(namespace, tag, &format!("{namespace:02X}{tag:02X}"), tag as u8));
            }
        }
        assert!(bench.drive.sound());
        lines.iter().for_each(|line| bench.accept(line));
        assert!(bench.drive.keys.iter().all(|&byte| byte == 0));
    }
}

#[test]
fn clearing_and_resets_keep_marks_and_counts() {
    for line in [clear_one(1, 0), clear_all(1), power_cycle(), controller_reset()] {
        let mut bench = Bench::new();
        bench.accept(manage(1, 1));
        bench.accept(load(1, 0, "AA", 0x11));
        bench.accept(write(1, 0, 0, 255));
        bench.accept(set_features(0x0B));
        let (drive, marks) = (bench.drive.clone(), bench.marks.clone());
        bench.accept(&line);
        assert_eq!(bench.marks, marks);
        assert_eq!(bench.drive.counts, drive.counts);
        assert_eq!(bench.drive.keys == drive.keys, line == controller_reset());
        assert_eq!(bench.drive.locks == [2, 2], line == power_cycle());
    }
}

#[test]
fn a_mark_is_the_key_uid_padded() {
    for length in 1..=16 {
        let mut bench = Bench::new();
        bench.accept(manage(4, 1));
        bench.accept(load(4, 0, &U16[..2 * length], 0x11));
        bench.accept(write(4, 0, 255, 0));
        let mut mark = [0; 17];
        mark[0] = length as u8;
        (1..=length).for_each(|byte| mark[byte] = 0x9F + byte as u8);
        assert_eq!(bench.marks.len(), 17_408);
        assert_eq!(bench.marks[17_408 - 17..], mark);
        assert_eq!(bench.marks[..17_408 - 17], [0; 17_408 - 17]);
    }
}

/// A drive with block 0 of namespace 1 written under a KeyUID in tag 0.
fn written_under(uid: &str) -> Bench {
    let mut bench = Bench::new();
    bench.accept(manage(1, 32));
    bench.accept(load(1, 0, uid, 0x11));
    bench.accept(write(1, 0, 0, 0));
    bench.accept(read(1, 0, 0, 0));
    bench
}

#[test]
fn a_read_needs_every_byte_of_the_key_uid() {
    for length in 1..=16 {
        let uid = &U16[..2 * length];
        let mut bench = written_under(uid);
        for byte in 0..length {
            let tag = 1 + byte as u16;
            let other = format!("{}FF{}", &uid[..2 * byte], &uid[2 * byte + 2..]);
            bench.accept(load(1, tag, &other, 0x22));
            bench.refuse(read(1, tag, 0, 0), "0028");
        }
    }
}

#[test]
fn a_read_needs_the_length_of_the_key_uid() {
    for uid in [U16, &"00".repeat(16)] {
        for length in 1..=16 {
            let mut bench = written_under(&uid[..2 * length]);
            for other in 1..=16 {
                bench.accept(load(1, other as u16, &uid[..2 * other], 0x11));
                match other == length {
                    true => bench.accept(read(1, other as u16, 0, 0)),
                    false => bench.refuse(read(1, other as u16, 0, 0), "0028"),
                }
            }
        }
    }
}
