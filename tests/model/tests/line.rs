//! 07 01: why a line is no frame line, and where its first bad digit stands.

mod bench;

use bench::Bench;

const EMPTY: &str = "0701010000";
const TOO_LONG: &str = "0701020000";
const ODD: &str = "0701040000";

/// The answer to a first bad digit at this place, low byte first.
fn bad_digit(place: usize) -> String {
    format!("070103{:02X}{:02X}", place % 256, place / 256)
}

/// Zeros with these bytes at these places.
fn zeros(digits: usize, others: &[(usize, u8)]) -> Vec<u8> {
    let mut line = vec![b'0'; digits];
    others.iter().for_each(|&(place, byte)| line[place] = byte);
    line
}

#[test]
fn as_written_by_hand() {
    let mut bench = Bench::new();
    bench.refuse("", "0701010000");
    bench.refuse("0", "0701040000");
    bench.refuse("090", "0701040000");
    bench.refuse("0a00", "0701030100");
    bench.refuse(" 09", "0701030000");
    bench.refuse("09\r", "0701030200");
    bench.refuse("09\n", "0701030200");
    bench.refuse("0G", "0701030100");
    bench.refuse("é", "0701030000");
    bench.refuse(zeros(1024, &[(0x0102, b'G')]), "0701030201");
    bench.refuse(zeros(1025, &[]), "0701020000");
    bench.refuse("O10101", "0701030000");
    bench.accept("010101");
}

#[test]
fn lines_of_every_length() {
    let mut bench = Bench::new();
    for digits in 0..1100 {
        bench.refuse(
            zeros(digits, &[]),
            match digits {
                0 => EMPTY,
                1025.. => TOO_LONG,
                _ if digits % 2 == 1 => ODD,
                _ => "0702",
            },
        );
    }
    for digits in [2048, 2050, 4096, 65_536, 65_537] {
        bench.refuse(zeros(digits, &[]), TOO_LONG);
    }
}

/// Both in an even line and in an odd one.
#[test]
fn a_bad_digit_at_every_place() {
    let mut bench = Bench::new();
    for digits in [1, 2, 3, 4, 63, 64, 255, 256, 257, 258, 511, 512, 513, 1022, 1023, 1024] {
        for place in 0..digits {
            bench.refuse(zeros(digits, &[(place, b'g')]), &bad_digit(place));
        }
    }
}

#[test]
fn every_byte_as_a_digit() {
    let mut bench = Bench::new();
    let is_digit = |byte: &u8| b"0123456789ABCDEF".contains(byte);
    for byte in 0..=255 {
        for (digits, place) in [(130, 64), (130, 129), (131, 65), (131, 130)] {
            // A kind that there is not, whatever the digit.
            let line = zeros(digits, &[(0, b'F'), (place, byte)]);
            match is_digit(&byte) {
                false => bench.refuse(line, &bad_digit(place)),
                true if digits % 2 == 1 => bench.refuse(line, ODD),
                true => bench.refuse(line, "0702"),
            }
        }
    }
}

#[test]
fn of_two_bad_digits_the_first_is_told() {
    let mut bench = Bench::new();
    for digits in [40, 41] {
        for (one, two) in (0..digits).flat_map(|one| (one + 1..digits).map(move |two| (one, two))) {
            bench.refuse(zeros(digits, &[(one, b'a'), (two, 0xFF)]), &bad_digit(one));
        }
    }
    bench.refuse([0xFF; 1024], &bad_digit(0));
}

#[test]
fn too_long_before_a_bad_digit() {
    let mut bench = Bench::new();
    for digits in [1025, 1026, 1027, 1028] {
        for place in [0, 1, 512, 1023, digits - 1] {
            bench.refuse(zeros(digits, &[(place, b'G')]), TOO_LONG);
        }
        bench.refuse(vec![b'\r'; digits], TOO_LONG);
    }
    // A carriage return is a character of its line.
    bench.refuse(zeros(1025, &[(1024, b'\r')]), TOO_LONG);
    bench.refuse(zeros(1024, &[(1023, b'\r')]), &bad_digit(1023));
}

#[test]
fn a_session_says_the_same() {
    let mut bench = Bench::new();
    let lines: [&[u8]; 6] = [b"", b"0G0", b"090", b"09\r", &[b'0'; 1025], b"G"];
    let alone: String = lines.iter().map(|line| bench.say(line) + "\n").collect();
    let mut out = [b'~'; 6 * 13 + 1];
    let text = lines.join(&b'\n');
    let told = bench.drive.session(&mut bench.marks, &text, &mut out);
    assert_eq!(told, (0, 6, 6 * 11));
    assert_eq!(String::from_utf8_lossy(&out[..6 * 11]), alone);
    assert!(out[6 * 11..].iter().all(|&byte| byte == b'~'));
}

/// The room asked stays that of other lines, and what is not written stays too.
#[test]
fn the_answer_asks_for_13_bytes_and_writes_11() {
    let mut bench = Bench::new();
    for line in ["", "0G", "090"] {
        let mut out = [b'~'; 13];
        let short = bench.drive.line(&mut bench.marks, line.as_bytes(), &mut out[..12]);
        assert_eq!((short, out), ((0x070F, 0), [b'~'; 13]));
        let told = bench.drive.line(&mut bench.marks, line.as_bytes(), &mut out);
        assert_eq!((told, &out[10..]), ((0x0701, 11), &b"\n~~"[..]));
    }
}
