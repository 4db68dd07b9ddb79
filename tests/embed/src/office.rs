//! The key office and a drive: messages written and sent, wrapped keys carried, each from a state
//! that has room for it.

use embed::Rng;
use model::lines::*;
use model::numbers::{KEK, KEY, NAMESPACES, PROGRAM_KEK, ROOM, STORE};
use model::{kmip, status, Drive};

use crate::arena::Lengths;
use crate::broken::Rule;
use crate::hostile::{to_digits, KEK_AT, LONGEST};
use crate::oracle::Function;
use crate::pair::{Difference, Pair, State};
use crate::tally::Tally;
use crate::writer::Writer;

/// What a KeyUID is cut from.
pub const UID: [u8; 20] =
    *b"\xA0\xA1\xA2\xA3\xA4\xA5\xA6\xA7\xA8\xA9\xAA\xAB\xAC\xAD\xAE\xAF\xB0\xB1\xB2\xB3";
/// What fills a key, and the key.
const KEY_BYTE: u8 = 0x5A;
pub const KEY_BYTES: [u8; KEY] = [KEY_BYTE; KEY];
/// Tags of each namespace of the drive.
pub const TAGS_EACH: u8 = 64;

pub struct Office {
    pub writer: Writer,
    pub rng: Rng,
    pair: Pair,
    /// Where every line is sent to.
    ready: State,
    line: Vec<u8>,
}

/// A load of kind 03.
#[derive(Clone, Copy)]
pub struct Load<'a> {
    pub namespace: u8,
    pub tag: u16,
    pub uid: &'a [u8],
    pub key: &'a [u8; KEY],
}

impl Load<'_> {
    pub fn message(&self) -> Vec<u8> {
        kmip::message(self.namespace, self.tag, self.uid, self.key)
    }

    /// The line that brings a message to the load's place.
    pub fn by_message(&self, message: &[u8]) -> String {
        message_frame(self.namespace, self.tag, message)
    }

    /// The line of kind 0E with these bytes for the wrapped key.
    pub fn by_courier(&self, wrapped: &[u8]) -> String {
        wrapped_frame(self.namespace, self.tag, &hex(self.uid), wrapped)
    }
}

pub type Done = Result<(), Difference>;

impl Office {
    pub fn new(seed: u64, broken: Option<Rule>) -> Office {
        Office {
            writer: Writer::new(broken),
            rng: Rng::new(seed),
            pair: Pair::new(Lengths::right(LONGEST, ROOM), broken),
            ready: ready(),
            line: Vec::new(),
        }
    }

    pub fn calls(&self) -> u64 {
        self.pair.tally.calls + self.writer.tally.calls
    }

    pub fn add_to(&self, tally: &mut Tally) {
        tally.add(&self.pair.tally);
        tally.add(&self.writer.tally);
    }

    /// The answer to a frame of kind 0D.
    pub fn send(&mut self, namespace: u8, tag: u16, message: &[u8]) -> Result<u16, Difference> {
        let [t0, t1] = tag.to_le_bytes();
        let frame = [&[0x0D, namespace, t0, t1], message].concat();
        to_digits(&frame, &mut self.line);
        self.pair.restore(&self.ready);
        self.pair.say(&self.line);
        self.answer(self.line.len())
    }

    /// The answer to what a line begins with; the rest of it lies behind.
    pub fn send_cut(&mut self, line: &str, length: usize) -> Result<u16, Difference> {
        self.pair.restore(&self.ready);
        self.pair.say(line.as_bytes());
        self.answer(length)
    }

    /// The key-encryption key of the drive from now on.
    pub fn agree_on(&mut self, kek: &[u8; KEK]) {
        self.ready.image[KEK_AT..].copy_from_slice(kek);
    }

    fn answer(&mut self, length: usize) -> Result<u16, Difference> {
        self.pair.call(Function::Line, Lengths::right(length, ROOM)).map(|outcome| outcome.number)
    }

    /// A line of kind 0D or 0E must do what a load of kind 03 with the same KeyUID and key does.
    pub fn does_as_load(&mut self, line: &str, load: &Load) -> Result<u16, Difference> {
        let bare = load_key(load.namespace, load.tag, &hex(load.uid), load.key);
        let by_line = (self.send_cut(line, line.len())?, self.pair.save());
        let by_load = (self.send_cut(&bare, bare.len())?, self.pair.save());
        if by_line == by_load {
            return Ok(by_load.0);
        }
        let numbers = [by_line.0, by_load.0].map(|number| format!("{number:04X}"));
        let told = format!("a line answered {} and its load {}", numbers[0], numbers[1]);
        Err(Difference(format!("{told}, both drives alike:\n  {line}\n  {bare}")))
    }

    /// The same, and the load is accepted.
    pub fn is_taken(&mut self, line: &str, load: &Load) -> Done {
        match self.does_as_load(line, load)? {
            status::DONE => Ok(()),
            number => Err(Difference(format!("a load answered {number:04X}, both drives alike"))),
        }
    }
}

/// Every namespace managed. Loaded: the last tag of namespace 1 under two bytes of the KeyUID, with
/// another key, and tag 1 of namespace 3 under three, with the same.
fn ready() -> State {
    let mut marks = vec![0; STORE];
    let (_, mut drive) = Drive::start(&PROGRAM_KEK, &mut marks);
    let managed = (1..=NAMESPACES as u8).map(|namespace| manage(namespace, TAGS_EACH));
    let last = u16::from(TAGS_EACH) - 1;
    let loaded = [load(1, last, &hex(&UID[..2]), !KEY_BYTE), load(3, 1, &hex(&UID[..3]), KEY_BYTE)];
    for line in managed.chain(loaded) {
        let (number, _) = drive.line(&mut marks, line.as_bytes(), &mut [0; ROOM]);
        assert_eq!(number, status::DONE, "{line}");
    }
    State { image: drive.to_image().to_vec(), marks }
}
