//! The lines of a session and of its answers.

/// A line feed ends a line. What follows the last one is a line too, if it is not empty.
pub fn split(text: &[u8]) -> Vec<&[u8]> {
    let mut lines: Vec<&[u8]> = text.split(|&byte| byte == b'\n').collect();
    if lines.last().is_some_and(|line| line.is_empty()) {
        lines.pop();
    }
    lines
}
