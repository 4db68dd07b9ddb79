//! Lines that are no frame lines: what is masked, where the caret stands, what stands beside it.

mod typist;

use typist::*;

/// The row of the line and that of the caret.
fn two_rows(line: impl AsRef<[u8]>, place: usize) -> (String, String) {
    let rows = rows(line, &bad_digit(place));
    assert_eq!(rows.len(), 4);
    (rows[0].clone(), rows[1].clone())
}

/// A line of digits with a bad one in it.
fn spoilt(length: usize, place: usize, bad: u8) -> Vec<u8> {
    let mut line = "03".repeat(length).into_bytes();
    line.truncate(length);
    line[place] = bad;
    line
}

fn note(bad: u8) -> String {
    let (row, caret) = two_rows(spoilt(8, 4, bad), 4);
    let shown = match bad {
        b' ' => '_',
        b'!'..=b'~' => bad.into(),
        _ => '?',
    };
    assert_eq!(row, format!("03..{shown}..."));
    caret.strip_prefix("    ^ place 4 (column 5): ").expect("the caret").to_string()
}

#[test]
fn the_rows_of_a_bad_line() {
    let mut line = load(1, 0, HERON, &KEY).into_bytes();
    line[19] = b'x';
    let awaited = [
        "03.................x.............................................. ..",
        "                   ^ place 19 (column 20): x is no digit (0-9, A-F)",
        "asked  nothing that can be read; by its first two digits a load",
        "0701   this is no frame line: a character in it is no digit",
    ];
    assert_eq!(rows(line, &bad_digit(19)), awaited);
}

#[test]
fn first_middle_and_last_place() {
    assert_eq!(
        two_rows("x3010000", 0),
        ("x.......".to_string(), "^ place 0 (column 1): x is no digit (0-9, A-F)".to_string())
    );
    assert_eq!(
        two_rows("0x010000", 1),
        (".x......".to_string(), " ^ place 1 (column 2): x is no digit (0-9, A-F)".to_string())
    );
    assert_eq!(
        two_rows("0301x000", 4),
        ("03..x...".to_string(), "    ^ place 4 (column 5): x is no digit (0-9, A-F)".to_string())
    );
    assert_eq!(
        two_rows("0301000x", 7),
        (
            "03.....x".to_string(),
            "       ^ place 7 (column 8): x is no digit (0-9, A-F)".to_string()
        )
    );
    assert_eq!(two_rows("x", 0).0, "x");
}

/// The caret is under the bad character, with a column for the line's number before both.
#[test]
fn the_caret_counts_the_column_of_numbers() {
    let session = "09\n".repeat(9) + "0301x000\n";
    let answers = "000012000000\n".repeat(9) + "0701030400\n";
    let page = words::page(session.as_bytes(), answers.as_bytes()).expect("ten lines");
    let rows: Vec<_> = page.lines().collect();
    assert_eq!(rows[27], "10  03..x...");
    assert!(rows[28].starts_with("        ^ place 4"));
    assert_eq!(rows[0], " 1  09");
}

#[test]
fn a_row_of_72_is_not_cut() {
    for place in [0, 36, 71] {
        let (row, caret) = two_rows(spoilt(72, place, b'x'), place);
        assert_eq!((row.len(), row.find('x')), (72, Some(place)));
        assert_eq!(caret.find('^'), Some(place));
    }
}

/// Longer lines are cut on one side or on both: the bad place is shown wherever it is, and the marks stand just where
/// something is missing.
#[test]
fn longer_rows_are_cut() {
    for length in [73, 74, 106, 140, 1023, 1024, 4000] {
        for place in 0..length {
            let (row, caret) = two_rows(spoilt(length, place, b'x'), place);
            let at = row.find('x').expect("the bad character");
            assert!(row.len() <= 72 && caret.find('^') == Some(at), "{length} {place}");
            let front = row.strip_prefix(".. ").unwrap_or(&row);
            let shown = front.strip_suffix(" ..").unwrap_or(front);
            let start = place - shown.find('x').expect("the bad character");
            assert_eq!(row != front, start > 0, "{length} {place}");
            assert_eq!(front != shown, start + shown.len() < length, "{length} {place}");
        }
    }
}

#[test]
fn where_a_row_is_cut() {
    let dots = |count| ".".repeat(count);
    let (front, _) = two_rows(spoilt(200, 3, b'x'), 3);
    assert_eq!(front, format!("03.x{} ..", dots(62)));
    let (middle, _) = two_rows(spoilt(200, 100, b'x'), 100);
    assert_eq!(middle, format!(".. {}x{} ..", dots(33), dots(32)));
    let (end, _) = two_rows(spoilt(200, 199, b'x'), 199);
    assert_eq!(end, format!(".. {}x", dots(65)));
}

#[test]
fn what_stands_beside_the_caret() {
    for letter in *b"xGg.-aOol?_\"" {
        assert_eq!(note(letter), format!("{} is no digit (0-9, A-F)", char::from(letter)));
    }
    assert_eq!(note(b' '), "a blank is no digit (0-9, A-F)");
    assert_eq!(note(b'\t'), "a tab is no digit (0-9, A-F)");
    assert_eq!(note(b'\r'), "a carriage return is no digit (0-9, A-F)");
    for byte in [0x00, 0x07, 0x1B, 0x7F, 0x80, 0xC3, 0xFF] {
        assert_eq!(note(byte), "a character that cannot be shown is no digit (0-9, A-F)");
    }
}

#[test]
fn what_helps_with_a_bad_digit() {
    let hint = |bad| said(spoilt(8, 4, bad), &bad_digit(4));
    assert_eq!(hint(b'x'), "this is no frame line: a character in it is no digit");
    assert_eq!(hint(b'g'), "this is no frame line: a character in it is no digit");
    assert_eq!(hint(b'a'), "this is no frame line: letters must be capitals");
    assert_eq!(hint(b'f'), "this is no frame line: letters must be capitals");
    assert_eq!(hint(b'O'), "this is no frame line: the letter O is not the digit 0");
    assert_eq!(hint(b'l'), "this is no frame line: a letter is not the digit 1");
    assert_eq!(hint(b' '), "this is no frame line: a line has no blanks, not even at its end");
    assert_eq!(hint(b'\r'), "this is no frame line: a line ends with a line feed alone");
}

/// Every byte in every place of a page is plain text, whatever the line had.
#[test]
fn nothing_unprintable_gets_out() {
    for byte in (0..=255).filter(|&byte| byte != b'\n') {
        let page = rows(spoilt(90, 80, byte), &bad_digit(80)).concat();
        assert!(page.bytes().all(|byte| byte == b' ' || byte.is_ascii_graphic()), "{byte}");
    }
}

/// A digit is never shown as a bad one, whatever place was told, and no place outside the line is looked at.
#[test]
fn a_place_that_is_wrong() {
    for place in [3, 6, 9, 10, 1000, 65535] {
        let rows = rows("03010x0000", &bad_digit(place));
        assert_eq!(rows[0], "03........", "{place}");
        assert_eq!(rows.len(), 3);
    }
    let rows = rows("03010x0x00", &bad_digit(7));
    assert_eq!(rows[0], "03.....x..");
}

#[test]
fn no_caret_without_a_place() {
    let long = "03".repeat(600);
    for (line, answer, row) in [
        ("", "0701010000", "(empty)".to_string()),
        ("", "0701", "(empty)".to_string()),
        ("03010", "0701040000", "03...".to_string()),
        ("13010", "0701040000", ".....".to_string()),
        ("0301x0", "0701", "03....".to_string()),
        (&long, "0701020000", format!("03{} ..", ".".repeat(64))),
        (&long, "0701", format!("03{} ..", ".".repeat(64))),
    ] {
        let rows = rows(line, answer);
        assert_eq!((rows.len(), &rows[0]), (3, &row), "{answer}");
    }
}

#[test]
fn what_a_bad_line_would_have_been() {
    assert_eq!(asked("0B0x"), "nothing that can be read; by its first two digits a reset");
    assert_eq!(asked("0F0x"), "nothing that can be read");
    assert_eq!(asked("1B0x"), "nothing that can be read");
    assert_eq!(asked("x"), "nothing that can be read");
    assert_eq!(asked(""), "nothing that can be read");
}
