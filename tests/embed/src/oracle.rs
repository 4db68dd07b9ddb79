//! What each function of the C interface must do, by the model: its rules on the image, then the
//! model's own.

use embed::proved;
use model::numbers::{IMAGE, KEK, STORE};
use model::{room, session_room, status, Drive};

use crate::arena::Lent;

#[derive(Clone, Copy, Debug, PartialEq, Eq)]
pub enum Function {
    /// The text is its key-encryption key.
    Start,
    Line,
    Session,
}

/// Counts that a function does not have are 0.
#[derive(Clone, Copy, Debug, PartialEq, Eq)]
pub struct Outcome {
    pub number: u16,
    pub lines: usize,
    pub written: usize,
}

impl Function {
    pub fn by_proved(self, lent: Lent) -> Outcome {
        let Lent { image, marks, text, out } = lent;
        match self {
            Function::Start => Outcome::of(proved::start(image, marks, kek(text)), 0, 0),
            Function::Line => {
                let (number, written) = proved::line(image, marks, text, out);
                Outcome::of(number, 0, written)
            }
            Function::Session => {
                let (number, lines, written) = proved::session(image, marks, text, out);
                Outcome::of(number, lines, written)
            }
        }
    }

    pub fn by_model(self, lent: Lent) -> Outcome {
        match self {
            Function::Start => start(lent),
            Function::Line => {
                let need = room(lent.text);
                with_drive(lent, need, |drive, marks, line, out| {
                    let (number, written) = drive.line(marks, line, out);
                    Outcome::of(number, 0, written)
                })
            }
            Function::Session => {
                let need = session_room(lent.text);
                with_drive(lent, need, |drive, marks, text, out| {
                    let (number, lines, written) = drive.session(marks, text, out);
                    Outcome::of(number, lines, written)
                })
            }
        }
    }
}

impl Outcome {
    fn of(number: u16, lines: usize, written: usize) -> Outcome {
        Outcome { number, lines, written }
    }
}

pub fn lines(text: &[u8]) -> usize {
    text.split_inclusive(|&byte| byte == b'\n').count()
}

fn kek(text: &[u8]) -> &[u8; KEK] {
    text.try_into().expect("a key-encryption key")
}

fn start(lent: Lent) -> Outcome {
    if lent.image.len() != IMAGE {
        let number = if lent.marks.len() != STORE { status::STORE } else { status::UNSOUND };
        return Outcome::of(number, 0, 0);
    }
    let (number, drive) = Drive::start(kek(lent.text), lent.marks);
    lent.image.copy_from_slice(&drive.to_image());
    Outcome::of(number, 0, 0)
}

fn with_drive(
    lent: Lent,
    need: usize,
    call: impl FnOnce(&mut Drive, &mut [u8], &[u8], &mut [u8]) -> Outcome,
) -> Outcome {
    let Some(mut drive) = Drive::from_image(lent.image) else {
        return Outcome::of(refusal_without_drive(&lent, need), 0, 0);
    };
    let outcome = call(&mut drive, lent.marks, lent.text, lent.out);
    lent.image.copy_from_slice(&drive.to_image());
    outcome
}

/// The model has no state for such an image, so the order of the three refusals is told here.
fn refusal_without_drive(lent: &Lent, need: usize) -> u16 {
    if lent.out.len() < need {
        status::OUTPUT
    } else if lent.marks.len() != STORE {
        status::STORE
    } else {
        status::UNSOUND
    }
}
