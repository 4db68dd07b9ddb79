//! KeyUIDs, the names of keys, as they are shown.

use crate::digits;

/// The bytes that a KeyUID may have at most.
pub const MOST: usize = 16;

/// A name as text, if it can be read as text, else as digits. `AA` as text and the byte AA are two names, so that digits
/// are said to be digits; and blanks would not be seen at the ends of a name without quotes.
pub fn shown(name: &[u8]) -> String {
    let text = String::from_utf8_lossy(name);
    if name.iter().all(u8::is_ascii_graphic) {
        text.into_owned()
    } else if name.iter().all(|&byte| byte == b' ' || byte.is_ascii_graphic()) {
        format!("\"{text}\"")
    } else {
        format!("{} (in digits)", digits::text(name))
    }
}
