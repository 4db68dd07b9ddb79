//! The proved drive and the model side by side: every call goes to both, each over its own memory,
//! and afterwards the two must have told the same and hold the same.

use model::numbers::{IMAGE, KEK, STORE};

use crate::arena::{Arena, Lengths};
use crate::broken::Rule;
use crate::oracle::{Function, Outcome};
use crate::tally::Tally;

/// What no answer holds, so that every byte written is seen.
const BLANK: u8 = b'~';

/// A call in which the two differ, told for a reader.
pub struct Difference(pub String);

pub struct Pair {
    proved: Arena,
    model: Arena,
    rooms: Lengths,
    broken: Option<Rule>,
    pub tally: Tally,
}

/// An image and a store of the right lengths.
#[derive(Clone, PartialEq, Eq)]
pub struct State {
    pub image: Vec<u8>,
    pub marks: Vec<u8>,
}

impl Pair {
    pub fn new(rooms: Lengths, broken: Option<Rule>) -> Pair {
        let (proved, model) = (Arena::new(rooms), Arena::new(rooms));
        Pair { proved, model, rooms, broken, tally: Tally::new() }
    }

    pub fn call(&mut self, function: Function, lengths: Lengths) -> Result<Outcome, Difference> {
        self.each(|arena, rooms| arena.lend(rooms).out.fill(BLANK));
        let proved = function.by_proved(self.proved.lend(&lengths));
        let mut model = function.by_model(self.model.lend(&lengths));
        if let Some(rule) = self.broken {
            rule.spoil(function, &lengths, &mut model, &mut self.model);
        }
        if proved != model || self.proved != self.model {
            return Err(self.difference(function, &lengths, [proved, model]));
        }
        self.tally.call(function, model.number);
        let (text, out) = (self.model.text(lengths.text), self.model.out(model.written));
        match function {
            Function::Start => {}
            Function::Line => self.tally.line(text, out, lengths.out),
            Function::Session => self.tally.answers(text, out),
        }
        Ok(model)
    }

    /// Starts both drives, with an image and a store of these lengths.
    pub fn start(
        &mut self,
        image: usize,
        marks: usize,
        kek: &[u8; KEK],
    ) -> Result<Outcome, Difference> {
        self.say(kek);
        self.call(Function::Start, Lengths { image, marks, text: KEK, out: 0 })
    }

    /// Lays a line or a text ready for the next call.
    pub fn say(&mut self, text: &[u8]) {
        self.each(|arena, rooms| arena.lend(rooms).text[..text.len()].copy_from_slice(text));
    }

    /// Changes image and store of both in the same way.
    pub fn change(&mut self, change: impl FnOnce(&mut [u8], &mut [u8])) {
        let lent = self.model.lend(&Lengths::right(0, 0));
        change(lent.image, lent.marks);
        let copy = self.proved.lend(&Lengths::right(0, 0));
        copy.image.copy_from_slice(lent.image);
        copy.marks.copy_from_slice(lent.marks);
    }

    /// Lays a byte in both images.
    pub fn lay_in_image(&mut self, at: usize, byte: u8) {
        self.each(|arena, rooms| arena.lend(rooms).image[at] = byte);
    }

    /// Lays a byte in both stores.
    pub fn lay_in_marks(&mut self, at: usize, byte: u8) {
        self.each(|arena, rooms| arena.lend(rooms).marks[at] = byte);
    }

    pub fn image(&self) -> &[u8] {
        self.model.image(IMAGE)
    }

    pub fn out(&self, length: usize) -> &[u8] {
        self.model.out(length)
    }

    pub fn save(&mut self) -> State {
        let lent = self.model.lend(&Lengths::right(0, 0));
        State { image: lent.image.to_vec(), marks: lent.marks.to_vec() }
    }

    pub fn restore(&mut self, state: &State) {
        self.change(|image, marks| {
            image.copy_from_slice(&state.image);
            marks.copy_from_slice(&state.marks);
        });
    }

    fn each(&mut self, mut change: impl FnMut(&mut Arena, &Lengths)) {
        change(&mut self.proved, &self.rooms);
        change(&mut self.model, &self.rooms);
    }

    fn difference(
        &self,
        function: Function,
        lengths: &Lengths,
        [proved, model]: [Outcome; 2],
    ) -> Difference {
        let Lengths { image, marks, text, out } = *lengths;
        let shown = |bytes: &[u8]| bytes.escape_ascii().to_string();
        let mut told = vec![
            format!("{function:?}: image {image}, marks {marks}, text {text}, out {out}"),
            format!("  text:   \"{}\"", shown(self.model.text(text))),
            format!("  proved: {proved:X?} \"{}\"", shown(self.proved.out(out))),
            format!("  model:  {model:X?} \"{}\"", shown(self.model.out(out))),
        ];
        if let Some((place, one, two)) = self.proved.difference(&self.model, lengths) {
            told.push(format!("  memory: {place}: proved {one:02X}, model {two:02X}"));
        }
        Difference(told.join("\n"))
    }
}

impl Lengths {
    /// Image and store of the right lengths.
    pub fn right(text: usize, out: usize) -> Lengths {
        Lengths { image: IMAGE, marks: STORE, text, out }
    }
}
