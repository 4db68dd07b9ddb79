//! One text through both drives, each time from the same state, and the best time of each.

use std::hint::black_box;

use embed::proved;
use model::numbers::STORE;
use model::{session_room, status, Drive};

use crate::clock;

pub const ROUNDS: usize = 15;

/// A text, its lines, and the state it starts from.
pub struct Course {
    pub text: Vec<u8>,
    pub lines: usize,
    pub drive: Drive,
    pub marks: Vec<u8>,
}

/// Nanoseconds a line.
#[derive(Clone, Copy)]
pub struct Times {
    pub proved: f64,
    pub model: f64,
}

impl Times {
    pub fn ratio(&self) -> f64 {
        self.proved / self.model
    }
}

/// One drive's memory, used again in each round so that it is warm.
struct Lane {
    marks: Vec<u8>,
    out: Vec<u8>,
    best: f64,
}

impl Lane {
    fn new(course: &Course) -> Lane {
        let out = vec![0; session_room(&course.text)];
        Lane { marks: vec![0; STORE], out, best: f64::INFINITY }
    }

    /// Times a run from the course's start; the first round only warms.
    fn run(&mut self, course: &Course, round: usize, run: impl FnOnce(&mut [u8], &mut [u8])) {
        self.marks.copy_from_slice(&course.marks);
        self.out.fill(0);
        let since = clock::nanoseconds();
        run(black_box(&mut self.marks), black_box(&mut self.out));
        let nanoseconds = (clock::nanoseconds() - since) as f64 / course.lines as f64;
        if round > 0 {
            self.best = self.best.min(nanoseconds);
        }
    }
}

/// The text as one session.
pub fn sessions(course: &Course) -> Times {
    let (mut ours, mut theirs) = (Lane::new(course), Lane::new(course));
    for round in 0..=ROUNDS {
        let mut image = course.drive.to_image();
        ours.run(course, round, |marks, out| {
            let (number, lines, _) = proved::session(&mut image, marks, &course.text, out);
            assert_eq!((number, lines), (status::DONE, course.lines));
        });
        let mut drive = course.drive.clone();
        theirs.run(course, round, |marks, out| {
            let (number, lines, _) = drive.session(marks, black_box(&course.text), out);
            assert_eq!((number, lines), (status::DONE, course.lines));
        });
        assert_eq!(image, drive.to_image());
        compare(&ours, &theirs);
    }
    Times { proved: ours.best, model: theirs.best }
}

/// The text line by line. The model with its own state, or taking it from an image and back, as
/// the C interface does.
pub fn lines(course: &Course, by_image: bool) -> Times {
    let text: Vec<&[u8]> = course.text.split(|&byte| byte == b'\n').take(course.lines).collect();
    let (mut ours, mut theirs) = (Lane::new(course), Lane::new(course));
    for round in 0..=ROUNDS {
        let mut image = course.drive.to_image();
        ours.run(course, round, |marks, out| {
            let mut written = 0;
            for line in &text {
                written += proved::line(&mut image, marks, line, &mut out[written..]).1;
            }
        });
        let mut drive = course.drive.clone();
        theirs.run(course, round, |marks, out| {
            let mut image = drive.to_image();
            let mut written = 0;
            for line in black_box(&text) {
                let out = &mut out[written..];
                written += match by_image {
                    true => line_by_image(black_box(&mut image), marks, line, out),
                    false => drive.line(marks, line, out).1,
                };
            }
            if by_image {
                drive = Drive::from_image(&image).expect("an image");
            }
        });
        assert_eq!(image, drive.to_image());
        compare(&ours, &theirs);
    }
    Times { proved: ours.best, model: theirs.best }
}

/// Many keys, each by one call and in place; the times are those of a call.
pub fn keys<const N: usize>(
    keys: &[[u8; N]],
    by_proved: impl Fn(&mut [u8; N]),
    by_model: impl Fn(&mut [u8; N]),
) -> Times {
    let mut best = Times { proved: f64::INFINITY, model: f64::INFINITY };
    let (mut ours, mut theirs) = (keys.to_vec(), keys.to_vec());
    for round in 0..=ROUNDS {
        ours.copy_from_slice(keys);
        theirs.copy_from_slice(keys);
        let proved = each(black_box(&mut ours), &by_proved);
        let model = each(black_box(&mut theirs), &by_model);
        assert!(ours == theirs, "the keys differ");
        if round > 0 {
            best = Times { proved: best.proved.min(proved), model: best.model.min(model) };
        }
    }
    best
}

/// Nanoseconds a key.
fn each<const N: usize>(keys: &mut [[u8; N]], call: impl Fn(&mut [u8; N])) -> f64 {
    let since = clock::nanoseconds();
    keys.iter_mut().for_each(call);
    (clock::nanoseconds() - since) as f64 / keys.len() as f64
}

fn line_by_image(image: &mut [u8], marks: &mut [u8], line: &[u8], out: &mut [u8]) -> usize {
    let mut drive = Drive::from_image(image).expect("an image");
    let (_, written) = drive.line(marks, line, out);
    image.copy_from_slice(&drive.to_image());
    written
}

fn compare(ours: &Lane, theirs: &Lane) {
    assert!(ours.out == theirs.out, "the answers differ");
    assert!(ours.marks == theirs.marks, "the marks differ");
}
