//! What a program with a wrong rule says of a line that is no frame line.

use crate::broken::{is_digit, Rule};

/// What it says instead of this answer of the model, if it says something else.
pub fn fault_told(rule: Rule, line: &[u8], answer: &[u8]) -> Option<Vec<u8>> {
    let [first, last] = [line.iter().position(is_bad), line.iter().rposition(is_bad)];
    let bad_digit = answer.starts_with(b"070103");
    match rule {
        Rule::NoReason => Some(b"0701\n".to_vec()),
        Rule::ReasonOnly => Some([&answer[..6], b"\n"].concat()),
        Rule::BadDigitLast if bad_digit => Some(at("03", last?)),
        Rule::BadDigitFirst => Some(at("03", first?)),
        Rule::OddFirst if bad_digit && line.len() % 2 == 1 => Some(at("04", 0)),
        Rule::OddPlace if answer.starts_with(b"070104") => Some(at("04", line.len() - 1)),
        Rule::PlaceHighFirst if bad_digit => Some(format!("070103{:04X}\n", first?).into_bytes()),
        Rule::PlaceFromOne if bad_digit => Some(at("03", first? + 1)),
        Rule::PlaceByte if bad_digit => Some(at("03", first? % 256)),
        _ => None,
    }
}

fn is_bad(byte: &u8) -> bool {
    !is_digit(byte)
}

fn at(reason: &str, place: usize) -> Vec<u8> {
    format!("0701{reason}{:02X}{:02X}\n", place % 256, place / 256).into_bytes()
}
