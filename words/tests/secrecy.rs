//! No key gets out: not of a sound line, not of a damaged one, whatever the answer is.

mod typist;

use typist::*;

const ROUNDS: usize = 2000;

const ANSWERS: [&str; 19] = [
    "0000",
    "0002",
    "000B",
    "0025",
    "0028",
    "0701",
    "0702",
    "0703",
    "0704",
    "0706",
    "0709",
    "070A",
    "070B",
    "070C",
    "0710",
    "0717",
    "0718",
    "0719",
    "000012000000",
];

/// A key with its digits known, and another for the same line.
struct Line {
    text: String,
    other: String,
    key: String,
}

fn name(dice: &mut Dice) -> Vec<u8> {
    let length = 1 + dice.below(16);
    match dice.below(2) {
        0 => (0..length).map(|_| b'A' + dice.below(26) as u8).collect(),
        _ => dice.bytes(length),
    }
}

/// A load, a replace, a load by a message or one of a wrapped key, with two keys.
fn line(dice: &mut Dice) -> Line {
    let form = dice.below(4);
    let bytes = if form == 3 { WRAPPED.len() } else { KEY.len() };
    let (key, other) = (dice.bytes(bytes), dice.bytes(bytes));
    let (room, number) = (dice.below(6) as u8, dice.below(200) as u16);
    let (old, new) = (name(dice), name(dice));
    let with = |key: &[u8]| match form {
        0 => load(room, number, &new, key),
        1 => replace(room, number, &old, &new, key),
        2 => message_load(room, number, &new, key),
        _ => wrapped_load(room, number, &new, key),
    };
    Line { text: with(&key), other: with(&other), key: hex(&key) }
}

fn page(line: &[u8], answer: &str) -> String {
    rows(line, answer).join("\n")
}

/// Whether so many digits of the key stand in the text one behind the other, in capitals or not.
fn has_run(text: &str, key: &str, digits: usize) -> bool {
    let text = text.to_uppercase();
    (0..=key.len() - digits).any(|at| text.contains(&key[at..at + digits]))
}

#[test]
fn the_search_finds_what_it_looks_for() {
    let key: String = (0..32).map(|byte| format!("{:02X}", byte * 7)).collect();
    assert!(has_run(&format!("a {} b", &key[56..].to_lowercase()), &key, 8));
    assert!(has_run(&load(1, 0, HERON, &KEY), &hex(&KEY), 64));
    assert!(!has_run(&format!("a {} b", &key[57..]), &key, 8));
}

/// What is shown of a sound line is the same for every key.
#[test]
fn sound_lines() {
    let mut dice = Dice::new(1);
    for _ in 0..ROUNDS {
        let line = line(&mut dice);
        let answer = dice.pick(&ANSWERS);
        let page = page(line.text.as_bytes(), answer);
        assert!(!has_run(&page, &line.key, 8), "{page}");
        assert_eq!(page, self::page(line.other.as_bytes(), answer));
    }
}

fn bad_byte(dice: &mut Dice) -> u8 {
    loop {
        let byte = dice.byte();
        if byte != b'\n' && !matches!(byte, b'0'..=b'9' | b'A'..=b'F') {
            return byte;
        }
    }
}

/// That a row is masked but for its kind, which may be cut off.
fn masked(row: &str, kind: &str) {
    let rest = row.strip_prefix(kind).unwrap_or(row);
    assert_eq!(rest.trim_matches(['.', ' ']), "", "{row}");
}

/// A bad character somewhere: nothing is shown but the kind and that character, and the page is the same for every key.
#[test]
fn a_character_is_mistyped() {
    let mut dice = Dice::new(2);
    for _ in 0..ROUNDS {
        let line = line(&mut dice);
        let place = dice.below(line.text.len());
        let bad = bad_byte(&mut dice);
        let [mistyped, other] = [&line.text, &line.other].map(|text| {
            let mut text = text.clone().into_bytes();
            text[place] = bad;
            text
        });
        let rows = rows(&mistyped, &bad_digit(place));
        let caret = rows[1].find('^').expect("the caret");
        assert!(bad <= b' ' || bad > b'~' || rows[0].as_bytes()[caret] == bad);
        masked(&(rows[0][..caret].to_string() + &rows[0][caret + 1..]), &line.text[..2]);
        assert!(!has_run(&rows.concat(), &line.key, 8), "{}", rows.concat());
        for answer in [&bad_digit(place), "0701", "0701040000", "0701020000", "0703"] {
            assert_eq!(page(&mistyped, answer), page(&other, answer));
        }
    }
}

/// The text with some digits lost, or with the same digits twice.
fn lost_or_doubled(text: &str, place: usize, digits: usize, lost: bool) -> String {
    let (front, rest) = text.split_at(place);
    let (some, rest) = rest.split_at(digits);
    if lost {
        format!("{front}{rest}")
    } else {
        format!("{front}{some}{some}{rest}")
    }
}

/// One digit lost or one too many: an odd number, and nothing is shown but the kind.
#[test]
fn a_digit_is_lost_or_doubled() {
    let mut dice = Dice::new(3);
    for _ in 0..ROUNDS {
        let Line { text, other, key } = line(&mut dice);
        let (place, lost) = (2 + dice.below(text.len() - 2), dice.below(2) == 0);
        let [damaged, other] = [&text, &other].map(|text| lost_or_doubled(text, place, 1, lost));
        for answer in ["0701040000", "0701", &bad_digit(place)] {
            let page = page(damaged.as_bytes(), answer);
            masked(page.lines().next().expect("the line"), &text[..2]);
            assert!(!has_run(&page, &key, 8), "{page}");
            assert_eq!(page, self::page(other.as_bytes(), answer));
        }
    }
}

/// One byte lost or one too many: the key is no longer where the length says, and still the page is the same for every
/// key.
#[test]
fn a_byte_is_lost_or_doubled() {
    let mut dice = Dice::new(4);
    for _ in 0..ROUNDS {
        let Line { text, other, key } = line(&mut dice);
        let (place, lost) = (2 + dice.below(text.len() - 3), dice.below(2) == 0);
        let [damaged, other] = [&text, &other].map(|text| lost_or_doubled(text, place, 2, lost));
        let answer = dice.pick(&ANSWERS);
        let page = page(damaged.as_bytes(), answer);
        assert!(!has_run(&page, &key, 8), "{page}");
        assert_eq!(page, self::page(other.as_bytes(), answer), "{damaged}");
    }
}

/// Where the damage is in the key or behind the name's length, a load shows nothing but its kind.
#[test]
fn a_load_of_a_wrong_length() {
    let mut dice = Dice::new(5);
    for _ in 0..ROUNDS {
        let text = load(1, 0, &name(&mut dice), &dice.bytes(32));
        let bytes = 5 + dice.below(text.len() / 2 - 5);
        assert_eq!(rows(&text[..2 * bytes], "0703")[0], "03..");
        assert_eq!(rows(text.clone() + &text[..2 * bytes], "0703")[0], "03..");
        let bare = wrapped_load(1, 0, &name(&mut dice), &dice.bytes(32));
        assert_eq!(rows(bare, "0703")[0], "0E..");
    }
}

/// A line feed got into a key, which ends each of these lines: of the rest nothing is shown but a kind, if it begins as
/// one. The exception is a rest that is itself one of the short frames, which have up to ten digits.
#[test]
fn a_line_is_broken_in_two() {
    let mut dice = Dice::new(6);
    for _ in 0..ROUNDS {
        let Line { text, key, .. } = line(&mut dice);
        let place = text.len() - 64 + dice.below(64);
        let (front, rest) = text.split_at(place);
        assert!(!has_run(&page(front.as_bytes(), "0703"), &key, 8), "{front}");
        let page = page(rest.as_bytes(), dice.pick(&["0701", "0702", "0703", "0717"]));
        let digits = page.lines().next().expect("the line").trim_matches(['.', ' ']);
        assert!(digits.len() <= 2 || rest.len() <= 10, "{rest}: {page}");
    }
}

/// Session and answers in the wrong order: the lines of the session are no answers, and are not shown.
#[test]
fn files_in_the_wrong_order() {
    let mut dice = Dice::new(7);
    for _ in 0..ROUNDS {
        let line = line(&mut dice);
        let page = page(dice.pick(&ANSWERS).as_bytes(), &line.text);
        assert!(!has_run(&page, &line.key, 8), "{page}");
        assert!(page.ends_with("????   this is no answer of the drive"));
    }
}

/// Any bytes for a line, any bytes for an answer: a page comes out, of plain text.
#[test]
fn any_bytes() {
    let mut dice = Dice::new(8);
    let letters = b"0123456789ABCDEF0000000011111122334455677x\r\xFF";
    for _ in 0..10 * ROUNDS {
        let any = |dice: &mut Dice, most| {
            let length = dice.below(most);
            (0..length).map(|_| dice.pick(letters)).collect::<Vec<u8>>()
        };
        let (line, answer) = (any(&mut dice, 160), any(&mut dice, 14));
        let (session, answers) = ([&line[..], b"\n"].concat(), [&answer[..], b"\n"].concat());
        let page = words::page(&session, &answers).expect("one line, one answer");
        assert!(page.bytes().all(|byte| matches!(byte, b'\n' | b' '..=b'~')), "{page}");
    }
}
