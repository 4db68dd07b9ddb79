//! Every row of the refusal table but 07 01 (`line.rs`), each refusal seen to change nothing.

mod bench;

use bench::Bench;
use model::lines::*;
use model::numbers::{OUTPUT, PROGRAM_KEK, SLOT, TAGS, WRAPPED};
use model::Drive;

/// Namespace 1 with tags 0 and 1, tag 0 loaded, block 7 written with it.
fn recorded() -> Bench {
    let mut bench = Bench::new();
    bench.accept(manage(1, 2));
    bench.accept(load(1, 0, "AA", 0x11));
    bench.accept(write(1, 0, 7, 0));
    bench
}

#[test]
fn opcode_0001() {
    let mut bench = recorded();
    for opcode in 0..=255 {
        match opcode {
            WRITE | READ | COMPARE | VERIFY => bench.accept(io(opcode, 1, 0, 0, 0)),
            _ => bench.refuse(io(opcode, 1, 0, 0, 0), "0001"),
        }
    }
}

#[test]
fn field_0002() {
    let mut bench = recorded();
    for cetype in (0..16).filter(|&cetype| cetype != 1) {
        bench.refuse(with(&read(1, 0, 0, 0), 50, 0x10 | cetype), "0002");
    }
    bench.accept(with(&read(1, 0, 0, 0), 50, 0xF1));
    for dword in [0x04, 0x07, 0x20, 0x38, 0x40, 0x8000_0000] {
        bench.refuse(set_features(dword), "0002");
    }
    bench.refuse(boot_write(2), "0002");
    bench.refuse("0B02", "0002");
}

#[test]
fn namespace_000b() {
    let mut bench = recorded();
    for namespace in [0, 5, 255] {
        bench.refuse(manage(namespace, 1), "000B");
        bench.refuse(release(namespace), "000B");
        bench.refuse(load(namespace, 0, "AA", 0x11), "000B");
        bench.refuse(wrapped_load(namespace, 0, "AA", 0x11), "000B");
        bench.refuse(replace(namespace, 0, "AA", "BB", 0x22), "000B");
        bench.refuse(clear_one(namespace, 0), "000B");
        bench.refuse(clear_all(namespace), "000B");
        bench.refuse(read(namespace.into(), 0, 0, 0), "000B");
    }
    bench.refuse(read(257, 0, 0, 0), "000B");
    bench.refuse(read(u32::MAX, 0, 0, 0), "000B");
}

#[test]
fn tag_0025() {
    let mut bench = recorded();
    for tag in [2, 127, 128, 256, u16::MAX] {
        bench.refuse(load(1, tag, "BB", 0x22), "0025");
        bench.refuse(wrapped_load(1, tag, "BB", 0x22), "0025");
        bench.refuse(replace(1, tag, "AA", "BB", 0x22), "0025");
        bench.refuse(clear_one(1, tag), "0025");
        bench.refuse(write(1, tag, 0, 0), "0025");
    }
    bench.refuse(write(1, 1, 0, 0), "0025");
}

#[test]
fn wrong_key_0028() {
    let mut bench = recorded();
    bench.accept(load(1, 1, "BB", 0x22));
    for opcode in [READ, COMPARE, VERIFY] {
        bench.refuse(io(opcode, 1, 1, 7, 0), "0028");
        bench.refuse(io(opcode, 1, 1, 0, 255), "0028");
        bench.accept(io(opcode, 1, 1, 8, 0));
    }
    bench.accept(write(1, 1, 7, 0));
    bench.refuse(read(1, 0, 7, 0), "0028");
}

#[test]
fn a_mark_of_length_0_is_never_written() {
    let mut bench = recorded();
    bench.marks[1..17].fill(0xEE);
    bench.accept(read(1, 0, 0, 0));
    bench.marks[0] = 0xEE;
    bench.refuse(read(1, 0, 0, 0), "0028");
}

#[test]
fn a_mark_that_no_write_left_is_another() {
    for byte in 0..17 {
        let mut bench = recorded();
        bench.marks.copy_within(7 * 17..8 * 17, 0);
        bench.accept(read(1, 0, 0, 0));
        bench.marks[byte] ^= 0x80;
        bench.refuse(read(1, 0, 0, 0), "0028");
    }
}

#[test]
fn blocks_0080() {
    let mut bench = recorded();
    bench.accept(read(1, 0, 0, 255));
    for (first, field) in [(256, 0), (255, 1), (0, 256), (0, u16::MAX), (1 << 32, 0)] {
        bench.refuse(read(1, 0, first, field), "0080");
    }
    for field in [0, 255, 256, u16::MAX] {
        bench.refuse(write(1, 0, u64::MAX, field), "0080");
        bench.refuse(write(1, 0, u64::MAX - 255, field), "0080");
    }
}

#[test]
fn boot_locks_010e_and_011e() {
    let mut bench = Bench::new();
    bench.refuse(boot_write(0), "011E");
    bench.accept(set_features(0x19));
    bench.accept(boot_write(0));
    bench.refuse(boot_write(1), "011E");
    for dword in [0x09, 0x0A, 0x10, 0x13] {
        bench.refuse(set_features(dword), "010E");
    }
    bench.accept(set_features(0x1A));
    assert_eq!(bench.drive.locks, [2, 3]);
}

#[test]
fn kind_0702() {
    let mut bench = Bench::new();
    for kind in (0..=255).filter(|kind| !(1..=14).contains(kind)) {
        for bytes in [1, 70, 71, 511, 512] {
            bench.refuse(hex(&vec![kind; bytes]), "0702");
        }
        bench.refuse(hex(&[kind; 513]), "0701020000");
    }
}

#[test]
fn length_0703() {
    let mut bench = recorded();
    let frames = [manage(2, 1), release(1), clear_one(1, 0), clear_all(1), write(1, 0, 0, 0)];
    let others = [set_features(9), get_features(), boot_write(0), power_cycle(), discovery()];
    let [load, wrapped] = [load(1, 1, "BB", 0x22), wrapped_load(1, 1, "BB", 0x22)];
    let keyed = [load, wrapped, replace(1, 0, "AA", "BB", 0x22)];
    for frame in frames.iter().chain(&others).chain(&keyed) {
        let line = format!("{frame}{}", "00".repeat(513));
        for bytes in (1..=80).chain((84..512).step_by(29)).chain([255, 256, 257, 511, 512]) {
            if bytes * 2 != frame.len() {
                bench.refuse(&line[..bytes * 2], "0703");
            }
        }
        bench.refuse(&line[..2 * 513], "0701020000");
    }
}

#[test]
fn key_uid_length_0704() {
    let mut bench = recorded();
    for length in (0..=255).filter(|length| !(1..=16).contains(length)) {
        for head in ["03010100", "0E010100"] {
            bench.refuse(format!("{head}{length:02X}"), "0704");
            bench.refuse(format!("{head}{length:02X}{}", "00".repeat(65)), "0704");
        }
        bench.refuse(format!("04010000{length:02X}"), "0704");
        bench.refuse(format!("0401000001AA{length:02X}"), "0704");
        bench.refuse(format!("04010000{length:02X}{}", "00".repeat(65)), "0704");
        for head in ["03010100", "0E010100", "04010000", "0401000001AA"] {
            for bytes in [71, 72, 256, 512] {
                let filling = "00".repeat(bytes - head.len() / 2 - 1);
                bench.refuse(format!("{head}{length:02X}{filling}"), "0704");
            }
            bench.refuse(format!("{head}{length:02X}{}", "00".repeat(512)), "0701020000");
        }
    }
    bench.refuse(replace(1, 0, &"AA".repeat(16), &"AA".repeat(17), 0x22), "0704");
    bench.refuse(replace(1, 0, &"AA".repeat(17), &"AA".repeat(16), 0x22), "0704");
}

#[test]
fn management_0705_to_0708() {
    let mut bench = recorded();
    bench.refuse(manage(1, 2), "0705");
    bench.refuse(release(2), "0706");
    bench.refuse(clear_all(2), "0706");
    bench.refuse(load(2, 0, "AA", 0x11), "0706");
    bench.refuse(wrapped_load(2, 0, "AA", 0x11), "0706");
    bench.refuse(replace(2, 0, "AA", "BB", 0x22), "0706");
    bench.refuse(clear_one(2, 0), "0706");
    for count in [0].into_iter().chain(129..=255) {
        bench.refuse(manage(2, count), "0707");
    }
    bench.accept(manage(2, 128));
    bench.refuse(manage(3, 127), "0708");
    bench.accept(manage(3, 126));
}

/// Every three counts near their limits, held against the sum.
#[test]
fn pool_0708() {
    let counts = [1, 2, 63, 64, 65, 126, 127, 128];
    for (one, two) in counts.into_iter().flat_map(|one| counts.map(|two| (one, two))) {
        for three in counts {
            let mut bench = Bench::new();
            bench.accept(manage(1, one));
            bench.accept(manage(4, two));
            match u32::from(one) + u32::from(two) + u32::from(three) {
                ..=256 => bench.accept(manage(2, three)),
                _ => bench.refuse(manage(2, three), "0708"),
            }
        }
    }
}

#[test]
fn slots_0709_to_070c() {
    let mut bench = recorded();
    bench.refuse(load(1, 0, "BB", 0x22), "0709");
    bench.refuse(load(1, 0, "AA", 0x11), "0709");
    bench.refuse(wrapped_load(1, 0, "AA", 0x11), "0709");
    bench.refuse(clear_one(1, 1), "070A");
    bench.refuse(replace(1, 1, "AA", "BB", 0x22), "070A");
    for old in ["AB", "AA00", "AAAA"] {
        bench.refuse(replace(1, 0, old, "BB", 0x22), "070B");
    }
    bench.refuse(load(1, 1, "AA", 0x12), "070C");
    bench.refuse(wrapped_load(1, 1, "AA", 0x12), "070C");
    bench.refuse(replace(1, 0, "AA", "AA", 0x12), "070C");
    bench.accept(replace(1, 0, "AA", "AA", 0x11));
    bench.accept(load(1, 1, "AA00", 0x12));
}

#[test]
fn integrity_0710() {
    let mut bench = recorded();
    for byte in [0x00, 0x11, 0xA6, 0xFF] {
        bench.refuse(wrapped_frame(1, 1, "BB", &[byte; WRAPPED]), "0710");
    }
    bench.accept(wrapped_load(1, 1, "BB", 0x11));
}

/// The number that refuses both a line and a session, with nothing changed or written.
fn refused_call(bench: &mut Bench, room: usize) -> u16 {
    refused_with(bench, "0B01", room)
}

fn refused_with(bench: &mut Bench, line: &str, room: usize) -> u16 {
    let (drive, marks) = (bench.drive.clone(), bench.marks.clone());
    let mut out = vec![b'~'; room];
    let (number, written) = bench.drive.line(&mut bench.marks, line.as_bytes(), &mut out);
    let text = format!("{line}\n");
    let session = bench.drive.session(&mut bench.marks, text.as_bytes(), &mut out);
    assert_eq!((session, written), ((number, 0, 0), 0));
    assert!(bench.drive == drive && bench.marks == marks);
    assert!(out.iter().all(|&byte| byte == b'~'));
    number
}

#[test]
fn store_070d() {
    for length in [0, 1, 9_216, 17_407, 17_409, 2 * 17_408] {
        let mut bench = recorded();
        bench.marks = vec![0xEE; length];
        assert_eq!(refused_call(&mut bench, 13), 0x070D);
        let started = Drive::start(&PROGRAM_KEK, &mut bench.marks);
        assert_eq!(started, (0x070D, Drive::fresh(&PROGRAM_KEK)));
        assert!(bench.marks.iter().all(|&byte| byte == 0xEE));
        let empty = bench.drive.session(&mut bench.marks, b"", &mut []);
        assert_eq!(empty, (0x070D, 0, 0));
    }
}

#[test]
fn unsound_070e() {
    let slot = |namespace: usize, tag: usize| ((namespace - 1) * TAGS + tag) * SLOT;
    let spoils: [&dyn Fn(&mut Drive); 12] = [
        &|drive| drive.counts[3] = 129,
        &|drive| drive.counts = [255; 4],
        &|drive| drive.counts = [128; 4],
        &|drive| drive.counts = [2, 255, 0, 0],
        &|drive| drive.counts = [2, 128, 127, 0],
        &|drive| drive.keys[slot(1, 2)] = 1,
        &|drive| drive.keys[slot(1, 127)] = 1,
        &|drive| drive.keys[slot(4, 127)] = 1,
        &|drive| drive.keys[slot(1, 0)] = 17,
        &|drive| drive.keys[slot(1, 0) + 16] = 1,
        &|drive| drive.keys[slot(1, 1) + 1] = 1,
        &|drive| drive.keys[slot(4, 127) + SLOT - 1] = 1,
    ];
    for spoil in spoils {
        let mut bench = recorded();
        assert!(bench.drive.sound());
        spoil(&mut bench.drive);
        assert!(!bench.drive.sound());
        assert_eq!(refused_call(&mut bench, 13), 0x070E);
    }
    let mut bench = recorded();
    bench.drive.counts = [2, 128, 126, 0];
    bench.drive.keys[slot(1, 0)] = 16;
    bench.drive.keys[slot(1, 0) + 1..slot(1, 1)].fill(0xEE);
    assert!(bench.drive.sound());
}

#[test]
fn output_070f() {
    let mut bench = recorded();
    assert_eq!(refused_call(&mut bench, 0), 0x070F);
    assert_eq!(refused_call(&mut bench, 12), 0x070F);
    let mut out = [0; OUTPUT];
    for (text, lines) in [("", 0), ("\n", 1), ("09", 1), ("09\n\n", 2), ("\n\n09", 3)] {
        session_asks(&mut bench, text, lines, 13 * lines, &mut out);
    }
    for (text, lines) in [("0C\n", 1), ("0C", 1), ("0C\n0C\n", 2), ("0C\n0C", 2)] {
        session_asks(&mut bench, text, lines, 229 * lines, &mut out);
    }
    for text in ["0C\n\n", "0C\n0C00", "0c\n0C", "0C\r\n0C\n", "09\n0C", " 0C\n0C\n"] {
        session_asks(&mut bench, text, 2, 229 + 13, &mut out);
    }
    for (discoveries, others) in [(0, 4096), (13, 3867), (221, 203)] {
        let text = "0C\n".repeat(discoveries) + &"\n".repeat(others);
        session_asks(&mut bench, &text, discoveries + others, OUTPUT, &mut out);
    }
}

/// With one byte less than it asks for, the session is refused.
fn session_asks(bench: &mut Bench, text: &str, lines: usize, room: usize, out: &mut [u8]) {
    let (drive, marks) = (&mut bench.drive, &mut bench.marks);
    if room > 0 {
        let short = drive.session(marks, text.as_bytes(), &mut out[..room - 1]);
        assert_eq!(short, (0x070F, 0, 0), "{text}");
    }
    let enough = drive.session(marks, text.as_bytes(), &mut out[..room]);
    assert_eq!((enough.0, enough.1), (0, lines), "{text}");
}

#[test]
fn a_line_asks_for_room_by_its_digits() {
    let mut bench = recorded();
    let others = ["", "09", "0C00", "0c", " 0C", "0C ", "0C\r", "0C\n", "C", "0D", "0E", "0B00"];
    for (line, room) in others.map(|line| (line, 13)).into_iter().chain([("0C", 229)]) {
        let mut out = vec![b'~'; room];
        let (drive, marks) = (&mut bench.drive, &mut bench.marks);
        let short = drive.line(marks, line.as_bytes(), &mut out[..room - 1]);
        assert_eq!(short, (0x070F, 0), "{line}");
        assert!(out.iter().all(|&byte| byte == b'~'));
        let (number, written) = drive.line(marks, line.as_bytes(), &mut out);
        assert!(number != 0x070F && (written == room || room == 13), "{line}");
    }
}

#[test]
fn room_before_store_before_soundness() {
    let mut bench = recorded();
    bench.drive.counts[0] = 129;
    assert_eq!(refused_call(&mut bench, 13), 0x070E);
    assert_eq!(refused_with(&mut bench, "0C", 229), 0x070E);
    bench.marks.pop();
    assert_eq!(refused_call(&mut bench, 13), 0x070D);
    assert_eq!(refused_call(&mut bench, 12), 0x070F);
    assert_eq!(refused_with(&mut bench, "0C", 229), 0x070D);
    assert_eq!(refused_with(&mut bench, "0C", 228), 0x070F);
}

#[test]
fn images() {
    let bench = recorded();
    let image = bench.drive.to_image();
    assert_eq!(image[..6], [2, 0, 0, 0, 2, 2]);
    assert_eq!(image[6..9], [1, 0xAA, 0]);
    assert_eq!(image[25_094..], PROGRAM_KEK);
    assert_eq!(Drive::from_image(&image), Some(bench.drive));
    assert_eq!(Drive::from_image(&image[1..]), None);
    assert_eq!(Drive::from_image(&image[..6_278]), None);
    assert_eq!(Drive::from_image(&image[..25_094]), None);
    assert_eq!(Drive::from_image(&[image.as_slice(), &[0]].concat()), None);
    assert_eq!(Drive::from_image(&[]), None);
    for (at, lock) in [(4, 0), (4, 4), (5, 0), (5, 255)] {
        let mut image = image;
        image[at] = lock;
        assert_eq!(Drive::from_image(&image), None);
    }
}
