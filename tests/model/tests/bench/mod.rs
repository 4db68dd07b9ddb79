//! A drive on the bench: every refusal is checked to change nothing.

use model::numbers::{PROGRAM_KEK, STORE};
use model::{room, Drive};

pub struct Bench {
    pub drive: Drive,
    pub marks: Vec<u8>,
}

impl Bench {
    pub fn new() -> Bench {
        Bench { drive: Drive::fresh(&PROGRAM_KEK), marks: vec![0; STORE] }
    }

    /// The answer to a line, without its line feed.
    pub fn say(&mut self, line: impl AsRef<[u8]>) -> String {
        let mut out = vec![b'~'; room(line.as_ref()) + 1];
        let (number, written) = self.drive.line(&mut self.marks, line.as_ref(), &mut out);
        let text = std::str::from_utf8(&out).unwrap();
        let (answer, untouched) = text.split_once('\n').expect("a line feed");
        assert_eq!(written, answer.len() + 1);
        assert!(answer.starts_with(&format!("{number:04X}")));
        assert!(untouched.bytes().all(|byte| byte == b'~'), "output past the answer");
        answer.to_string()
    }

    pub fn accept(&mut self, line: impl AsRef<[u8]>) {
        let text = String::from_utf8_lossy(line.as_ref()).into_owned();
        assert_eq!(self.say(line), "0000", "{text}");
    }

    pub fn refuse(&mut self, line: impl AsRef<[u8]>, answer: &str) {
        assert_ne!(&answer[..4], "0000");
        self.keep(line, answer);
    }

    /// An answer that leaves state and marks as they were.
    pub fn keep(&mut self, line: impl AsRef<[u8]>, answer: &str) {
        let text = String::from_utf8_lossy(line.as_ref()).into_owned();
        let (drive, marks) = (self.drive.clone(), self.marks.clone());
        assert_eq!(self.say(line), answer, "{text}");
        assert_eq!(self.drive, drive, "state after {text}");
        assert_eq!(self.marks, marks, "marks after {text}");
    }
}
