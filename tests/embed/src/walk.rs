//! Two walks over the drive's states: one line after the other, and one text after the other.

use model::numbers::{DISCOVERY_ROOM, IMAGE, STORE};
use model::{room, session_room};

use crate::arena::Lengths;
use crate::broken::Rule;
use crate::host::{Host, NEAR, SPARE};
use crate::hostile::LONGEST;
use crate::oracle::{lines, Function};
use crate::pair::{Difference, Pair, State};

const MOST_LINES: usize = 24;

pub struct LineWalk {
    pub pair: Pair,
    host: Host,
}

pub struct TextWalk {
    pub pair: Pair,
    host: Host,
    text: Vec<u8>,
}

/// What is left when a whole text has been answered, however it was cut.
#[derive(PartialEq, Eq)]
struct End {
    lines: usize,
    out: Vec<u8>,
    state: State,
}

/// Each line may ask for discovery.
fn rooms(text: usize, lines: usize) -> Lengths {
    let out = lines * DISCOVERY_ROOM + SPARE;
    Lengths { image: IMAGE + NEAR, marks: STORE + NEAR, text, out }
}

impl LineWalk {
    pub fn new(seed: u64, broken: Option<Rule>) -> LineWalk {
        LineWalk { pair: Pair::new(rooms(LONGEST, 1), broken), host: Host::new(seed) }
    }

    pub fn step(&mut self) -> Result<(), Difference> {
        self.host.before(&mut self.pair)?;
        let line = self.host.line(self.pair.image());
        let (length, need) = (line.len(), room(line));
        self.pair.say(line);
        let lengths = Lengths::right(length, self.host.room(need));
        self.host.call(&mut self.pair, Function::Line, lengths).map(|_| ())
    }
}

impl TextWalk {
    pub fn new(seed: u64, broken: Option<Rule>) -> TextWalk {
        let rooms = rooms(MOST_LINES * (LONGEST + 1), MOST_LINES);
        TextWalk { pair: Pair::new(rooms, broken), host: Host::new(seed), text: Vec::new() }
    }

    pub fn step(&mut self) -> Result<(), Difference> {
        self.host.before(&mut self.pair)?;
        self.write_text();
        if self.host.rng.once_in(4) {
            return self.step_in_pieces();
        }
        self.pair.say(&self.text);
        let lengths = Lengths::right(self.text.len(), self.host.room(session_room(&self.text)));
        self.host.call(&mut self.pair, Function::Session, lengths).map(|_| ())
    }

    fn write_text(&mut self) {
        self.text.clear();
        for _ in 0..self.host.rng.below(MOST_LINES) {
            self.text.extend(self.host.line(self.pair.image()));
            self.text.push(b'\n');
        }
        if self.host.rng.once_in(3) {
            self.text.pop();
        }
        // Damaged lines may hold line feeds of their own.
        while lines(&self.text) > MOST_LINES {
            self.text.pop();
        }
    }

    fn step_in_pieces(&mut self) -> Result<(), Difference> {
        let before = self.pair.save();
        let whole = self.answer(&[self.text.len()])?;
        self.pair.restore(&before);
        let cuts = self.cuts();
        let pieces = self.answer(&cuts)?;
        if whole == pieces {
            return Ok(());
        }
        let text = self.text.escape_ascii();
        Err(Difference(format!("a text whole and cut at {cuts:?}, both drives alike: \"{text}\"")))
    }

    /// Ends of pieces that end with a line, some of them empty; the last is the text's end.
    fn cuts(&mut self) -> Vec<usize> {
        let mut cuts = Vec::new();
        let mut end = 0;
        for line in self.text.split_inclusive(|&byte| byte == b'\n') {
            end += line.len();
            for _ in 0..self.host.rng.below(3) {
                cuts.push(end);
            }
        }
        cuts.push(end);
        cuts
    }

    fn answer(&mut self, cuts: &[usize]) -> Result<End, Difference> {
        let mut end = End { lines: 0, out: Vec::new(), state: self.pair.save() };
        let mut start = 0;
        for &cut in cuts {
            let piece = start..cut;
            start = cut;
            self.answer_piece(piece, &mut end)?;
        }
        end.state = self.pair.save();
        Ok(end)
    }

    /// One line goes as a line or as a session; anything else as a session.
    fn answer_piece(
        &mut self,
        piece: std::ops::Range<usize>,
        end: &mut End,
    ) -> Result<(), Difference> {
        let piece = &self.text[piece];
        let line = piece.strip_suffix(b"\n").unwrap_or(piece);
        let (function, said, need) = match lines(piece) {
            1 if self.host.rng.once_in(2) => (Function::Line, line, room(line)),
            _ => (Function::Session, piece, session_room(piece)),
        };
        self.pair.say(said);
        let lengths = Lengths::right(said.len(), need);
        let outcome = self.pair.call(function, lengths)?;
        end.lines += if function == Function::Line { 1 } else { outcome.lines };
        end.out.extend(self.pair.out(outcome.written));
        Ok(())
    }
}
