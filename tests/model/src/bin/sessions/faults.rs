//! Where a line is bad: the reason behind 0701, then the place of the first bad digit, low byte first.

use model::lines::*;

use crate::folder::Folder;

pub fn add(folder: &mut Folder) {
    each_reason(folder);
    first_middle_last(folder);
    two_bad_digits(folder);
    odd_lines(folder);
    each_place(folder);
    past_place_255(folder);
    longest_lines(folder);
    lines_too_long(folder);
    carriage_return_behind_the_longest(folder);
    last_lines(folder);
}

/// A line with another character at one place.
fn spoilt(line: &str, place: usize, character: char) -> String {
    format!("{}{character}{}", &line[..place], &line[place + 1..])
}

fn zeros(digits: usize) -> String {
    "0".repeat(digits)
}

fn each_reason(folder: &mut Folder) {
    folder.add(
        "line-bad-for-each-reason",
        [
            (String::new(), "0701010000"),
            (zeros(1025), "0701020000"),
            ("0G".to_string(), "0701030100"),
            ("090".to_string(), "0701040000"),
            ("09".to_string(), "000012000000"),
        ],
    );
}

/// What a typist takes for a digit: O for 0, I for 1, S for 5, a small letter.
fn first_middle_last(folder: &mut Folder) {
    let load = load(1, 0, "A5", 0x11);
    assert_eq!(load.len(), 76);
    folder.add(
        "line-bad-digit-first-middle-last",
        [
            ("O10101".to_string(), "0701030000"),
            ("01O101".to_string(), "0701030200"),
            ("01010I".to_string(), "0701030500"),
            ("010101".to_string(), "0000"),
            (spoilt(&load, 0, 'O'), "0701030000"),
            (spoilt(&load, 10, 'a'), "0701030A00"),
            (spoilt(&load, 11, 'S'), "0701030B00"),
            (spoilt(&load, 38, 'I'), "0701032600"),
            (spoilt(&load, 75, 'I'), "0701034B00"),
            (clear_one(1, 0), "070A"),
            (load, "0000"),
        ],
    );
}

fn two_bad_digits(folder: &mut Folder) {
    let load = load(1, 0, "A5", 0x11);
    let twice = |one, two| spoilt(&spoilt(&load, one, 'I'), two, 'O');
    folder.add(
        "line-two-bad-digits",
        [
            ("GG".to_string(), "0701030000"),
            ("0G0G".to_string(), "0701030100"),
            ("G00G".to_string(), "0701030000"),
            ("09 G\r".to_string(), "0701030200"),
            (twice(2, 3), "0701030200"),
            (twice(74, 75), "0701034A00"),
            (twice(75, 12), "0701030C00"),
            (twice(0, 75), "0701030000"),
            ("aBcDeF".to_string(), "0701030000"),
            ("AbCdEf".to_string(), "0701030100"),
        ],
    );
}

fn odd_lines(folder: &mut Folder) {
    let load = load(1, 0, "A5", 0x11);
    folder.add(
        "line-bad-digit-in-an-odd-line",
        [
            ("0".to_string(), "0701040000"),
            ("G".to_string(), "0701030000"),
            ("090".to_string(), "0701040000"),
            ("G90".to_string(), "0701030000"),
            ("0G0".to_string(), "0701030100"),
            ("09G".to_string(), "0701030200"),
            ("09\r".to_string(), "0701030200"),
            (load[..75].to_string(), "0701040000"),
            (spoilt(&load[..75], 37, 'I'), "0701032500"),
            (spoilt(&load[..75], 74, 'I'), "0701034A00"),
        ],
    );
}

/// Of an even line and of an odd one, each of so many digits that all places fit an input.
fn each_place(folder: &mut Folder) {
    for digits in [62, 61] {
        let line = "0123456789ABCDEF".repeat(4)[..digits].to_string();
        let each =
            (0..digits).map(|place| (spoilt(&line, place, 'G'), format!("070103{place:02X}00")));
        folder.add(format!("line-bad-digit-at-each-place-of-{digits}"), each);
    }
}

fn past_place_255(folder: &mut Folder) {
    let bad = |digits, place| spoilt(&zeros(digits), place, 'G');
    folder.add(
        "line-bad-digit-past-place-255",
        [
            (bad(258, 254), "070103FE00"),
            (bad(258, 255), "070103FF00"),
            (bad(258, 256), "0701030001"),
            (bad(258, 257), "0701030101"),
            (bad(514, 511), "070103FF01"),
            (bad(514, 512), "0701030002"),
            (bad(514, 513), "0701030102"),
            (bad(800, 772), "0701030403"),
        ],
    );
}

/// Three lines of 1,024 digits are all that an input holds.
fn longest_lines(folder: &mut Folder) {
    folder.add(
        "line-1023-and-1024-digits-with-bad-ones",
        [
            (spoilt(&zeros(1024), 1023, 'G'), "070103FF03"),
            (spoilt(&zeros(1023), 1022, 'G'), "070103FE03"),
            (zeros(1023), "0701040000"),
        ],
    );
}

fn lines_too_long(folder: &mut Folder) {
    folder.add(
        "line-1025-and-1026-digits-with-bad-ones",
        [
            (spoilt(&zeros(1025), 0, 'G'), "0701020000"),
            (spoilt(&zeros(1026), 512, 'G'), "0701020000"),
            (spoilt(&zeros(1025), 1024, 'G'), "0701020000"),
        ],
    );
    folder.add(
        "line-1026-and-2048-characters-and-no-digit",
        [("\r".repeat(1026), "0701020000"), ("g".repeat(2048), "0701020000")],
    );
}

/// It counts as a character of the line.
fn carriage_return_behind_the_longest(folder: &mut Folder) {
    folder.add(
        "line-1022-to-1024-digits-and-a-carriage-return",
        [
            (zeros(1024) + "\r", "0701020000"),
            (zeros(1023) + "\r", "070103FF03"),
            (zeros(1022) + "\r", "070103FE03"),
        ],
    );
}

fn last_lines(folder: &mut Folder) {
    folder.raw("line-last-bad-without-line-feed", "0\n0G", "0701040000\n0701030100\n");
    folder.raw("line-last-carriage-return-without-line-feed", "\n09\r", "0701010000\n0701030200\n");
    let long = zeros(1025);
    folder.raw(
        "line-last-too-long-without-line-feed",
        format!("G\n{long}"),
        "0701030000\n0701020000\n",
    );
}
