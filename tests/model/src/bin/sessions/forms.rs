//! What a line is and what an input is.

use model::lines::*;

use crate::discovery;
use crate::folder::Folder;

const GET: &str = "000012000000\n";
const EMPTY: &str = "0701010000\n";
const ODD: &str = "0701040000\n";

pub fn add(folder: &mut Folder) {
    few_digits(folder);
    many_digits(folder);
    most_digits(folder);
    bad_bytes(folder);
    foreign_text(folder);
    lower_case(folder);
    carriage_returns(folder);
    line_ends(folder);
    kinds(folder);
    unknown_kinds(folder);
    input_of_line_feeds(folder);
    input_of_one_line(folder);
    input_of_frames(folder);
    input_far_too_long(folder);
    input_of_every_byte(folder);
}

fn few_digits(folder: &mut Folder) {
    let lines = [
        ("", "0701010000"),
        ("0", "0701040000"),
        ("9", "0701040000"),
        ("09", "000012000000"),
        ("090", "0701040000"),
        ("0900", "0703"),
        ("01010", "0701040000"),
        ("010101", "0000"),
        ("0101010", "0701040000"),
        ("0B0", "0701040000"),
        ("0B00", "0000"),
    ];
    folder.add("line-few-digits", lines.map(|(line, answer)| (line.to_string(), answer)));
}

fn many_digits(folder: &mut Folder) {
    let (old, new) = ("A1".repeat(16), "B1".repeat(16));
    let longest = replace(1, 0, &old, &new, 0x22);
    assert_eq!(longest.len(), 140);
    folder.add(
        "line-139-to-142-digits",
        [
            (manage(1, 1), "0000"),
            (load(1, 0, &old, 0x11), "0000"),
            (longest[..139].to_string(), "0701040000"),
            (format!("{longest}0"), "0701040000"),
            (format!("{longest}00"), "0703"),
            (replace(1, 0, &old, &"B1".repeat(17), 0x22), "0704"),
            (longest[..138].to_string(), "0703"),
            (longest.clone(), "0000"),
            (longest, "070B"),
        ],
    );
    let zeros = |digits| "0".repeat(digits);
    folder.add(
        "line-unknown-kind-138-to-143-digits",
        [
            (zeros(138), "0702"),
            (zeros(139), "0701040000"),
            (zeros(140), "0702"),
            (zeros(141), "0701040000"),
            (zeros(142), "0702"),
            (zeros(143), "0701040000"),
            (zeros(1000), "0702"),
            (zeros(1001), "0701040000"),
        ],
    );
}

/// Four lines of 1,024 digits are too much for one input.
fn most_digits(folder: &mut Folder) {
    let line = |start: &str, digits: usize| start.to_string() + &"0".repeat(digits - start.len());
    folder.add(
        "line-1024-to-1026-digits",
        [(line("", 1024), "0702"), (line("", 1025), "0701020000"), (line("", 1026), "0701020000")],
    );
    folder.add(
        "line-1022-and-1023-digits",
        [(line("", 1022), "0702"), (line("", 1023), "0701040000"), (line("", 1027), "0701020000")],
    );
    folder.add(
        "line-1024-digits-of-known-kinds",
        [
            (line("0301000011", 1024), "0704"),
            (line("07", 1024), "0703"),
            (line("0D", 1024), "0717"),
        ],
    );
    folder.add(
        "line-1026-digits-of-known-kinds",
        [
            (line("0301000011", 1026), "0701020000"),
            (line("07", 1026), "0701020000"),
            (line("0D", 1026), "0701020000"),
        ],
    );
    let last = line("FF", 1023);
    folder.add(
        "line-1024-digits-with-one-bad",
        [
            (line("G", 1024), "0701030000"),
            (format!("{last}a"), "070103FF03"),
            (format!("{last}A"), "0702"),
        ],
    );
}

fn bad_bytes(folder: &mut Folder) {
    let is_bad = |byte: &u8| !b"0123456789ABCDEF\n".contains(byte);
    let bad: Vec<u8> = (0..=255).filter(is_bad).collect();
    assert_eq!(bad.len(), 239);
    let answers = |answer: &str| format!("{answer}\n").repeat(bad.len());
    let first: Vec<u8> = bad.iter().flat_map(|&byte| [byte, b'9', b'\n']).collect();
    let second: Vec<u8> = bad.iter().flat_map(|&byte| [b'0', byte, b'\n']).collect();
    let third: Vec<u8> = bad.iter().flat_map(|&byte| [b'0', b'9', byte, b'\n']).collect();
    folder.raw("line-every-bad-byte-as-first-digit", first, answers("0701030000"));
    folder.raw("line-every-bad-byte-as-second-digit", second, answers("0701030100"));
    folder.raw("line-every-bad-byte-behind-get-features", third, answers("0701030200"));

    let command = read(1, 0, 0, 0);
    let spoiled = |at: usize| format!("{}G{}", &command[..at], &command[at + 1..]);
    folder.add(
        "line-one-bad-digit-in-a-long-line",
        [
            (command.clone(), "0000"),
            (spoiled(0), "0701030000"),
            (spoiled(1), "0701030100"),
            (spoiled(2), "0701030200"),
            (spoiled(64), "0701034000"),
            (spoiled(65), "0701034100"),
            (spoiled(128), "0701038000"),
            (spoiled(129), "0701038100"),
        ],
    );
}

/// Lines in which the first bad digit is the first, the second or the third character.
const NO_FRAMES: [(&str, &str); 3] = [
    (
        " 09|\t09|+9|-9|'09'|# 09|\x0009|O9|:;|@A|/0|GET|get features|\u{FEFF}09|\u{FF10}\u{FF19}|\u{660}\u{669}",
        "0701030000",
    ),
    ("0x09|0 9|0,9|0O|0l|FG|0_9", "0701030100"),
    (
        "09 |09\t|09h|09\0|09;09|0B_00|09\u{B}09|09\u{C}09|09\u{85}09|09\u{2028}09",
        "0701030200",
    ),
];

fn foreign_text(folder: &mut Folder) {
    let of = |(lines, answer): (&'static str, _)| lines.split('|').map(move |line| (line, answer));
    let lines = NO_FRAMES.into_iter().flat_map(of);
    let lines = lines.map(|(line, answer)| (line.to_string(), answer));
    folder.add("line-text-that-is-no-frame", lines);
    let bytes = [b"\xA009\n".as_slice(), b"09\xA0\n", b"\xFF\xFE0\x009\x00\n", b"09\n"].concat();
    let answers = format!("0701030000\n0701030200\n0701030000\n{GET}");
    folder.raw("line-other-encodings", bytes, answers);
}

fn lower_case(folder: &mut Folder) {
    folder.add(
        "line-lower-case",
        [
            (manage(1, 1), "0000"),
            (load(1, 0, "aa", 0x11), "0701030A00"),
            (load(1, 0, "Aa", 0x11), "0701030B00"),
            (load(1, 0, "AA", 0x11).replace("11", "1a"), "0701030D00"),
            (clear_one(1, 0), "070A"),
            (load(1, 0, "AA", 0xAB).to_lowercase(), "0701030A00"),
            (load(1, 0, "AA", 0xAB), "0000"),
            (boot_write(0).to_lowercase(), "0701030100"),
            (controller_reset().to_lowercase(), "0701030100"),
            (power_cycle().to_lowercase(), "0701030100"),
            (read(1, 0, 0, 0), "0000"),
            ("0d".to_string(), "0701030100"),
            ("ff".to_string(), "0701030000"),
            ("0D".to_string(), "0703"),
            ("0E".to_string(), "0703"),
            ("0F".to_string(), "0702"),
        ],
    );
}

fn carriage_returns(folder: &mut Folder) {
    folder.raw(
        "line-carriage-return-line-feed",
        "010101\r\n09\r\n0B01\r\n\r\n0\r\n010101\n09\n",
        format!("0701030600\n0701030200\n0701030400\n0701030000\n0701030100\n0000\n{GET}"),
    );
    folder.raw("line-carriage-return-alone", "09\r09\r09\r", "0701030200\n");
    let answers = format!("{GET}0701030000\n0701030000\n");
    folder.raw("line-line-feed-carriage-return", "09\n\r09\n\r", answers);
}

fn line_ends(folder: &mut Folder) {
    folder.raw("line-last-without-line-feed", "010101\n09", format!("0000\n{GET}"));
    folder.raw("line-only-one-without-line-feed", "09", GET);
    folder.raw("line-last-odd-without-line-feed", "09\n0", format!("{GET}{ODD}"));
    folder.raw("line-last-empty", "09\n\n", format!("{GET}{EMPTY}"));
    folder.raw("line-first-empty", "\n09\n", format!("{EMPTY}{GET}"));
    folder.raw("line-empty-between", "09\n\n\n09\n", format!("{GET}{EMPTY}{EMPTY}{GET}"));
    folder.raw("line-empty-then-without-line-feed", "\n\n09", format!("{EMPTY}{EMPTY}{GET}"));
    folder.raw("input-empty", "", "");
    folder.raw("input-one-line-feed", "\n", EMPTY);
    folder.raw("input-two-line-feeds", "\n\n", EMPTY.repeat(2));
    folder.raw("input-one-digit", "0", ODD);
    folder.raw("input-one-nul", "\0", "0701030000\n");
    folder.raw("input-one-carriage-return", "\r", "0701030000\n");
}

fn kinds(folder: &mut Folder) {
    let answer = |kind| match kind {
        0x09 => "000012000000",
        0x0C => discovery::answer(),
        0x01..=0x0E => "0703",
        _ => "0702",
    };
    folder.add("kind-every-byte-alone", (0..=255).map(|kind| (hex(&[kind]), answer(kind))));
    let answer = |kind| match kind {
        // Kinds of two bytes: release and clear all of namespace 0, partition 0, controller level.
        0x02 | 0x06 => "000B",
        0x0A => "011E",
        0x0B => "0000",
        0x01..=0x0E => "0703",
        _ => "0702",
    };
    folder.add("kind-every-byte-and-00", (0..=255).map(|kind| (hex(&[kind, 0]), answer(kind))));
}

fn unknown_kinds(folder: &mut Folder) {
    for kind in [0x00, 0x0F, 0xFF] {
        let of = |length: usize| (format!("{kind:02X}{}", "01".repeat(length - 1)), "0702");
        folder.add(format!("kind-{kind:02x}-of-1-to-60-bytes"), (1..=60).map(of));
        folder.add(format!("kind-{kind:02x}-of-61-to-80-bytes"), (61..=80).map(of));
        let long = [128, 255, 256, 257, 511, 512];
        folder.add(format!("kind-{kind:02x}-of-128-to-512-bytes"), long.map(of));
    }
    let others = [0x0F, 0x10, 0x11, 0x17, 0x19, 0x70, 0x7F, 0x80, 0x81, 0x90, 0xFE];
    folder.add(
        "kind-unknown-before-a-whole-command",
        others.map(|kind: u8| (format!("{kind:02X}{}", &read(1, 0, 0, 0)[2..]), "0702")),
    );
}

fn input_of_line_feeds(folder: &mut Folder) {
    for bytes in [4095, 4096] {
        let name = format!("input-{bytes}-line-feeds");
        folder.raw(name, "\n".repeat(bytes), EMPTY.repeat(bytes));
    }
    for bytes in [4097, 4098] {
        folder.raw(format!("input-{bytes}-line-feeds"), "\n".repeat(bytes), "070F\n");
    }
}

fn input_of_one_line(folder: &mut Folder) {
    for bytes in [4095, 4096, 4097, 4098] {
        let answer = if bytes <= 4096 { "0701020000\n" } else { "070F\n" };
        folder.raw(format!("input-{bytes}-digits"), "0".repeat(bytes), answer);
        let line = "0".repeat(bytes - 1) + "\n";
        folder.raw(format!("input-{bytes}-digits-and-line-feed"), line, answer);
    }
}

fn input_of_frames(folder: &mut Folder) {
    let gets = |times: usize| ("09\n".repeat(times), GET.repeat(times));
    let (text, answers) = gets(1365);
    assert_eq!(text.len(), 4095);
    folder.raw("input-4095-of-get-features", text.clone(), answers.clone());
    folder.raw("input-4096-last-line-empty", format!("{text}\n"), format!("{answers}{EMPTY}"));
    folder.raw("input-4096-last-line-odd", format!("{text}0"), format!("{answers}{ODD}"));
    folder.raw("input-4097-last-line-without-line-feed", format!("{text}09"), "070F\n");
    folder.raw("input-4097-last-line-feed-too-many", format!("{text}\n\n"), "070F\n");
    folder.raw("input-4098-of-get-features", format!("{text}09\n"), "070F\n");

    let (text, answers) = gets(1364);
    let (text, answers) = (format!("{text}\n\n09"), format!("{answers}{EMPTY}{EMPTY}{GET}"));
    assert_eq!(text.len(), 4096);
    folder.raw("input-4096-last-line-without-line-feed", text.clone(), answers);
    folder.raw("input-4097-by-its-last-line-feed", format!("{text}\n"), "070F\n");
}

fn input_far_too_long(folder: &mut Folder) {
    for bytes in [8192, 8193, 65536, 70000] {
        folder.raw(format!("input-{bytes}-line-feeds"), "\n".repeat(bytes), "070F\n");
    }
    let text = format!("{}\n{}", manage(1, 1), "09\n".repeat(4096));
    folder.raw("input-12295-of-good-frames", text, "070F\n");
}

fn input_of_every_byte(folder: &mut Folder) {
    let every: Vec<u8> = (0..=255).collect();
    // Every line begins with the byte 00, or with 0B, which follows the line feed.
    let bad = "0701030000\n";
    folder.raw("noise-every-byte-once", every.clone(), bad.repeat(2));
    folder.raw("noise-every-byte-16-times", every.repeat(16), bad.repeat(17));
}
