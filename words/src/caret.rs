//! A line that is no frame line, masked, with a caret under its bad digit. Such a line may be a mistyped load, and any
//! digit of it one of a key.

use crate::digits;
use crate::shown;

/// The characters that a row may have at most.
const ROW: usize = 72;

/// Stands where a line was cut. The blank keeps it apart from masked digits.
const CUT_LEFT: &str = ".. ";
const CUT_RIGHT: &str = " ..";

/// The characters of a line that was cut, so that there is room for both marks.
const WINDOW: usize = ROW - CUT_LEFT.len() - CUT_RIGHT.len();

pub struct Masked {
    pub row: String,
    /// The column of the bad digit in the row.
    pub column: Option<usize>,
}

/// The place of a bad digit, if the one that was told is in the line and is none. A digit is never shown for a bad one.
pub fn bad(line: &[u8], told: usize) -> Option<usize> {
    line.get(told).filter(|&&letter| digits::value(letter).is_none()).map(|_| told)
}

/// The line with a dot for each character but the kind and the bad one, and cut around this or, without one, behind its
/// front.
pub fn masked(line: &[u8], bad: Option<usize>) -> Masked {
    let (start, end) = window(line.len(), bad.unwrap_or(0));
    let open = if start == 0 { shown::kind_digits(line) } else { 0 };
    let mask = |place| if place < open || bad == Some(place) { plain(line[place]) } else { '.' };
    let mut row = String::new();
    if start > 0 {
        row.push_str(CUT_LEFT);
    }
    let column = bad.map(|place| row.len() + place - start);
    row.extend((start..end).map(mask));
    if end < line.len() {
        row.push_str(CUT_RIGHT);
    }
    Masked { row, column }
}

fn plain(letter: u8) -> char {
    match letter {
        b' ' => '_', // at the end of a row a blank would not be seen
        _ if letter.is_ascii_graphic() => letter.into(),
        _ => '?',
    }
}

/// The part of a line of so many characters that is shown, with the place in its middle where that can be.
fn window(length: usize, place: usize) -> (usize, usize) {
    if length <= ROW {
        return (0, length);
    }
    let start = place.saturating_sub(WINDOW / 2).min(length - WINDOW);
    (start, start + WINDOW)
}

/// What stands beside the caret. The answer counts places from 0, editors count columns from 1.
pub fn note(line: &[u8], place: usize) -> String {
    let what = match line[place] {
        b' ' => "a blank".to_string(),
        b'\t' => "a tab".to_string(),
        b'\r' => "a carriage return".to_string(),
        letter if letter.is_ascii_graphic() => char::from(letter).to_string(),
        _ => "a character that cannot be shown".to_string(),
    };
    format!("^ place {place} (column {}): {what} is no digit (0-9, A-F)", place + 1)
}

/// What may help with a bad digit that is often typed.
pub fn hint(letter: u8) -> Option<&'static str> {
    Some(match letter {
        b' ' => "a line has no blanks, not even at its end",
        b'\r' => "a line ends with a line feed alone",
        b'a'..=b'f' => "letters must be capitals",
        b'O' | b'o' => "the letter O is not the digit 0",
        b'I' | b'l' => "a letter is not the digit 1",
        _ => return None,
    })
}
