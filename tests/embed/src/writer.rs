//! The key office's writer, the proved one and the model's side by side: every message is written by
//! both, each over its own memory, and afterwards the two must have told the same and hold the same.

use embed::proved;
use model::numbers::{KEY, KEY_UID};
use model::{kmip, status};

use crate::broken::Rule;
use crate::pair::Difference;
use crate::tally::Tally;

/// The output that every message is asked for, `TUFFALEEN_MESSAGE_BYTES`.
pub const MESSAGE_ROOM: usize = 408;

/// How many bytes lie before, between and behind, and must not change.
const GUARD: usize = 61;
const GUARD_BYTE: u8 = 0xA5;
/// What an output holds before, and where nothing is written.
const BLANK: u8 = 0x7E;

const PARTS: [&str; 3] = ["KeyUID", "key", "output"];

/// What a writer is asked for.
#[derive(Clone, Copy)]
pub struct Wanted<'a> {
    pub namespace: u8,
    pub tag: u16,
    pub uid: &'a [u8],
    pub key: &'a [u8],
    /// How many bytes the output has.
    pub room: usize,
}

#[derive(PartialEq, Eq)]
struct Memory {
    bytes: Vec<u8>,
    starts: [usize; 3],
}

pub struct Writer {
    broken: Option<Rule>,
    pub tally: Tally,
}

impl Wanted<'_> {
    /// The refusals in the header's order, then the message.
    fn by_model(&self, broken: Option<Rule>) -> Result<Vec<u8>, u16> {
        let mut message = kmip::message(self.namespace, self.tag, self.uid, self.key);
        let room =
            broken.map_or(MESSAGE_ROOM, |rule| rule.message_room(MESSAGE_ROOM, message.len()));
        if self.room < room {
            return Err(status::OUTPUT);
        }
        if self.key.len() != KEY {
            return Err(status::MESSAGE);
        }
        if self.uid.is_empty() || self.uid.len() > KEY_UID {
            return Err(status::MESSAGE_KEY_UID);
        }
        if let Some(rule) = broken {
            rule.spoil_message(&mut message);
        }
        Ok(message)
    }
}

impl Memory {
    fn new(wanted: &Wanted) -> Memory {
        let out = vec![BLANK; wanted.room];
        // The first part begins at all kinds of addresses, and so do the others.
        let mut bytes = vec![GUARD_BYTE; GUARD + wanted.room % 8];
        let starts = [wanted.uid, wanted.key, &out].map(|part| {
            let start = bytes.len();
            bytes.extend(part);
            bytes.resize(bytes.len() + GUARD, GUARD_BYTE);
            start
        });
        Memory { bytes, starts }
    }

    fn by_proved(&mut self, wanted: &Wanted) -> (u16, usize) {
        let [uid, key, out] = self.starts;
        let ranges =
            [uid..uid + wanted.uid.len(), key..key + wanted.key.len(), out..out + wanted.room];
        let [uid, key, out] = self.bytes.get_disjoint_mut(ranges).expect("three parts");
        proved::message(wanted.namespace, wanted.tag, uid, key, out)
    }

    fn by_model(&mut self, wanted: &Wanted, broken: Option<Rule>) -> (u16, usize) {
        match wanted.by_model(broken) {
            Ok(message) => {
                self.bytes[self.starts[2]..][..message.len()].copy_from_slice(&message);
                (status::DONE, message.len())
            }
            Err(number) => (number, 0),
        }
    }

    /// Which byte of which part, or how far behind it.
    fn place(&self, at: usize) -> String {
        match self.starts.iter().rposition(|&start| start <= at) {
            Some(part) => format!("byte {} from the {}", at - self.starts[part], PARTS[part]),
            None => format!("byte {at} before the {}", PARTS[0]),
        }
    }
}

impl Writer {
    pub fn new(broken: Option<Rule>) -> Writer {
        Writer { broken, tally: Tally::new() }
    }

    /// The message, if there is one.
    pub fn write(&mut self, wanted: &Wanted) -> Result<Option<Vec<u8>>, Difference> {
        let (mut proved, mut model) = (Memory::new(wanted), Memory::new(wanted));
        let told = [proved.by_proved(wanted), model.by_model(wanted, self.broken)];
        if told[0] != told[1] || proved != model {
            return Err(difference(wanted, told, &proved, &model));
        }
        let (number, written) = told[0];
        self.tally.write(number, written);
        let out = proved.starts[2];
        Ok((number == status::DONE).then(|| proved.bytes[out..][..written].to_vec()))
    }
}

/// The key is not shown, but for a byte of it where the two differ.
fn difference(
    wanted: &Wanted,
    [proved, model]: [(u16, usize); 2],
    by_proved: &Memory,
    by_model: &Memory,
) -> Difference {
    let Wanted { namespace, tag, uid, key, room } = *wanted;
    let (uid, key) = (uid.len(), key.len());
    let mut lines = vec![
        format!(
            "message: namespace {namespace}, tag {tag}, KeyUID of {uid}, key of {key}, out {room}"
        ),
        format!("  proved: {:04X}, {} bytes written", proved.0, proved.1),
        format!("  model:  {:04X}, {} bytes written", model.0, model.1),
    ];
    let mut bytes = by_proved.bytes.iter().zip(&by_model.bytes);
    if let Some(at) = bytes.position(|(one, two)| one != two) {
        let (place, one, two) = (by_proved.place(at), by_proved.bytes[at], by_model.bytes[at]);
        lines.push(format!("  memory: {place}: proved {one:02X}, model {two:02X}"));
    }
    Difference(lines.join("\n"))
}
