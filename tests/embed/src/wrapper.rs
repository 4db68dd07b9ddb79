//! Wrapping and opening, the proved one and the model's side by side: every key goes to both, each
//! over its own memory, and afterwards the two must have told the same and hold the same.

use embed::proved;
use model::lines::hex;
use model::numbers::{KEK, KEY, WRAPPED};
use model::{status, wrap};

use crate::broken::Rule;
use crate::pair::Difference;
use crate::tally::{Event, Tally};

/// How many bytes lie before, between and behind, and must not change.
const GUARD: usize = 61;
const GUARD_BYTE: u8 = 0xA5;

/// The integrity value's bytes, which stand before a key that was opened.
const VALUE: usize = WRAPPED - KEY;

#[derive(Clone, Copy, Debug, PartialEq, Eq)]
pub enum Work {
    Wrap,
    Unwrap,
}

#[derive(Clone, PartialEq, Eq)]
struct Memory {
    all: Vec<u8>,
    /// Where the key-encryption key begins.
    kek: usize,
    /// Where the bytes begin that are worked on.
    bytes: usize,
}

pub struct Wrapper {
    broken: Option<Rule>,
    /// Bytes before the first guard, so that both parts begin at all kinds of addresses.
    shift: usize,
    pub tally: Tally,
}

impl Work {
    fn by_proved(self, memory: &mut Memory) -> u16 {
        let parts = [memory.kek..memory.kek + KEK, memory.bytes..memory.bytes + WRAPPED];
        let [kek, bytes] = memory.all.get_disjoint_mut(parts).expect("two parts");
        let kek = (&*kek).try_into().expect("a key-encryption key");
        let bytes = bytes.try_into().expect("a wrapped key");
        match self {
            Work::Wrap => {
                proved::wrap(kek, bytes);
                status::DONE
            }
            Work::Unwrap => proved::unwrap(kek, bytes),
        }
    }

    /// What the bytes become. Wrapping has no number, and is told as done.
    fn by_model(self, kek: &[u8; KEK], bytes: &[u8; WRAPPED]) -> (u16, [u8; WRAPPED]) {
        match self {
            Work::Wrap => {
                let key = bytes.last_chunk().expect("a key");
                (status::DONE, wrap::wrap(kek, key))
            }
            Work::Unwrap => match wrap::unwrap(kek, bytes) {
                Some(key) => (status::DONE, opened(&key)),
                None => (status::INTEGRITY, [0; WRAPPED]),
            },
        }
    }
}

/// A key behind the integrity value.
pub fn opened(key: &[u8; KEY]) -> [u8; WRAPPED] {
    let mut bytes = [0; WRAPPED];
    bytes[..VALUE].copy_from_slice(&wrap::INTEGRITY.to_be_bytes());
    bytes[VALUE..].copy_from_slice(key);
    bytes
}

impl Memory {
    fn new(shift: usize, kek: &[u8; KEK], bytes: &[u8; WRAPPED]) -> Memory {
        let guard = [GUARD_BYTE; GUARD];
        let mut all = vec![GUARD_BYTE; shift];
        let [kek, bytes] = [&kek[..], &bytes[..]].map(|part| {
            all.extend(guard);
            let start = all.len();
            all.extend(part);
            start
        });
        all.extend(guard);
        Memory { all, kek, bytes }
    }

    fn bytes(&mut self) -> &mut [u8; WRAPPED] {
        (&mut self.all[self.bytes..][..WRAPPED]).try_into().expect("40 bytes")
    }
}

impl Wrapper {
    pub fn new(broken: Option<Rule>) -> Wrapper {
        Wrapper { broken, shift: 0, tally: Tally::new() }
    }

    /// What the bytes become, and the number.
    pub fn call(
        &mut self,
        work: Work,
        kek: &[u8; KEK],
        bytes: &[u8; WRAPPED],
    ) -> Result<(u16, [u8; WRAPPED]), Difference> {
        self.shift = (self.shift + 1) % 8;
        let mut proved = Memory::new(self.shift, kek, bytes);
        let mut model = proved.clone();
        let told = work.by_proved(&mut proved);
        let (number, after) = work.by_model(kek, bytes);
        *model.bytes() = after;
        if let Some(rule) = self.broken {
            rule.spoil_work(work, kek, bytes, number, model.bytes());
        }
        if told != number || proved != model {
            return Err(difference(work, kek, bytes, [(told, &mut proved), (number, &mut model)]));
        }
        match work {
            Work::Wrap => self.tally.event(Event::Wrapped),
            Work::Unwrap => self.tally.unwrap(number),
        }
        self.tally.calls += 1;
        Ok((number, *proved.bytes()))
    }
}

/// The keys are the tests' own, and are shown.
fn difference(
    work: Work,
    kek: &[u8; KEK],
    bytes: &[u8; WRAPPED],
    [(told, proved), (number, model)]: [(u16, &mut Memory); 2],
) -> Difference {
    let mut lines = vec![
        format!("{work:?}: key-encryption key {}", hex(kek)),
        format!("  bytes:  {}", hex(bytes)),
        format!("  proved: {told:04X} {}", hex(proved.bytes())),
        format!("  model:  {number:04X} {}", hex(model.bytes())),
    ];
    let mut all = proved.all.iter().zip(&model.all);
    if let Some(at) = all.position(|(one, two)| one != two) {
        let from_bytes = at as isize - proved.bytes as isize;
        lines.push(format!("  byte {from_bytes} from the bytes is the first that differs"));
    }
    Difference(lines.join("\n"))
}
