//! The whole page: what stands for each line of a session, row by row.

use crate::answers::{self, Answer, Reason};
use crate::asked;
use crate::caret;
use crate::discovery;
use crate::done;
use crate::frames::{self, Asked};
use crate::lines;
use crate::locks;
use crate::refused;
use crate::shown;

/// The bytes that a session may have at most; the program answers no line of a longer one.
const SESSION: usize = 4096;

/// A session in words, or why the answers cannot be its own.
pub fn page(session: &[u8], answers: &[u8]) -> Result<String, String> {
    let asked = lines::split(session);
    let answered = lines::split(answers);
    if answered == [b"070F"] {
        return Ok(refused_whole(session));
    }
    if asked.len() != answered.len() {
        return Err(format!(
            "the session has {} lines, and there are {} answers",
            asked.len(),
            answered.len()
        ));
    }
    if asked.is_empty() {
        return Ok("The session has no lines.\n".to_string());
    }
    let width = asked.len().to_string().len();
    let mut page = String::new();
    for (at, (line, answer)) in asked.iter().zip(&answered).enumerate() {
        let mut head = (at + 1).to_string();
        for row in entry(line, answer) {
            page.push_str(&format!("{head:>width$}  {row}\n"));
            head.clear();
        }
    }
    Ok(page)
}

fn refused_whole(session: &[u8]) -> String {
    let why = if session.len() > SESSION {
        "it has more than 4,096 bytes"
    } else {
        "its answers need more than 53,248 bytes (229 for each line 0C, 13 for each other)"
    };
    format!("070F  The session was refused whole, and no line of it was answered: {why}.\n")
}

/// The rows for one line: the line, a caret if a digit is bad, what was asked, what the drive said.
fn entry(line: &[u8], answer: &[u8]) -> Vec<String> {
    let asked = frames::read(line);
    let answer = answers::read(answer);
    let mut rows = line_rows(line, &asked, &answer);
    rows.push(format!("asked  {}", asked::words(line, &asked)));
    rows.push(format!("{}   {}", answer.number(), said(line, &asked, &answer)));
    rows
}

fn line_rows(line: &[u8], asked: &Asked, answer: &Answer) -> Vec<String> {
    if line.is_empty() {
        return vec!["(empty)".to_string()];
    }
    if *asked != Asked::NotAFrameLine {
        return vec![shown::shown(line, asked)];
    }
    let bad = match answer {
        Answer::NotAFrameLine(Reason::BadDigit(place)) => caret::bad(line, *place),
        _ => None,
    };
    let masked = caret::masked(line, bad);
    let mut rows = vec![masked.row];
    if let (Some(place), Some(column)) = (bad, masked.column) {
        rows.push(format!("{:column$}{}", "", caret::note(line, place)));
    }
    rows
}

fn said(line: &[u8], asked: &Asked, answer: &Answer) -> String {
    match answer {
        Answer::Done => done::words(asked),
        Answer::Locks(dword) => format!("done: {}", locks::told(*dword)),
        Answer::Response(response) => format!("done: {}", discovery::told(response)),
        Answer::NotAFrameLine(reason) => refused::not_a_frame_line(line, *reason),
        Answer::Refused(number) => refused::words(line, asked, *number),
        Answer::Unknown => "this is no answer of the drive".to_string(),
    }
}
