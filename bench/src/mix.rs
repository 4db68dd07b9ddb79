//! Frames of mixed kinds as a host could send them, about half of them accepted.

use std::collections::BTreeMap;

use embed::Rng;
use model::lines::*;
use model::numbers::{
    BLOCKS, DISCOVERY_ROOM, FRAME, KEY, NAMESPACES, POOL, PROGRAM_KEK, SLOT, STORE, TAGS, WRAPPED,
};
use model::wrap::wrap;
use model::Drive;

use crate::messages::damaged;
use crate::race::Course;

const SEED: u64 = 11;
/// Tags that each namespace gets, so that the four share the whole pool.
const TAGS_EACH: u8 = (POOL / NAMESPACES) as u8;

/// What is mixed.
pub struct Recipe {
    /// How often each kind comes, in turns of 1000; what is left are lines that are no frame.
    kinds: &'static [(u8, usize)],
    /// Digits of the longest of these.
    longest: usize,
}

const TURNS: usize = 1000;

/// The same text since request 11, so that its figures can be compared. Its longest lines were too
/// long until lines had 1,024 digits, and are of a wrong length now.
pub const FIRST: Recipe = Recipe {
    kinds: &[
        (0x01, 20),
        (0x02, 3),
        (0x03, 160),
        (0x04, 100),
        (0x05, 50),
        (0x06, 3),
        (0x07, 500),
        (0x08, 40),
        (0x09, 30),
        (0x0A, 30),
        (0x0B, 10),
    ],
    longest: 142,
};

/// Every kind that there was before wrapped keys, and the same text, so that its figures can be
/// compared.
pub const UP_TO_0D: Recipe = Recipe {
    kinds: &[
        (0x01, 20),
        (0x02, 3),
        (0x03, 150),
        (0x04, 100),
        (0x05, 50),
        (0x06, 3),
        (0x07, 465),
        (0x08, 40),
        (0x09, 30),
        (0x0A, 30),
        (0x0B, 10),
        (0x0C, 5),
        (0x0D, 40),
    ],
    longest: 2 * FRAME + 2,
};

/// Every kind that there is: as many wrapped keys as messages.
pub const ALL_KINDS: Recipe = Recipe {
    kinds: &[
        (0x01, 20),
        (0x02, 3),
        (0x03, 150),
        (0x04, 100),
        (0x05, 50),
        (0x06, 3),
        (0x07, 425),
        (0x08, 40),
        (0x09, 30),
        (0x0A, 30),
        (0x0B, 10),
        (0x0C, 5),
        (0x0D, 40),
        (0x0E, 40),
    ],
    longest: 2 * FRAME + 2,
};

pub struct Mix {
    recipe: Recipe,
    rng: Rng,
    drive: Drive,
    marks: Vec<u8>,
    text: Vec<u8>,
    kinds: BTreeMap<String, usize>,
    answers: BTreeMap<String, usize>,
}

/// A course of so many mixed frames from fresh, and what is in it, told in two lines.
pub fn mixed(frames: usize, recipe: Recipe) -> (Course, String) {
    let mut mix = Mix::new(recipe);
    for namespace in 1..=NAMESPACES as u8 {
        mix.add(manage(namespace, TAGS_EACH));
    }
    for _ in NAMESPACES..frames {
        let line = mix.line();
        mix.add(line);
    }
    let told = format!("kinds    {}\nanswers  {}", counts(&mix.kinds), counts(&mix.answers));
    let drive = Drive::fresh(&PROGRAM_KEK);
    (Course { text: mix.text, lines: frames, drive, marks: vec![0; STORE] }, told)
}

pub fn counts(counts: &BTreeMap<String, usize>) -> String {
    counts.iter().map(|(name, count)| format!("{name} {count}")).collect::<Vec<_>>().join(", ")
}

impl Mix {
    fn new(recipe: Recipe) -> Mix {
        let mut marks = vec![0; STORE];
        let (_, drive) = Drive::start(&PROGRAM_KEK, &mut marks);
        let (kinds, answers) = (BTreeMap::new(), BTreeMap::new());
        let (rng, text) = (Rng::new(SEED), Vec::new());
        Mix { recipe, rng, drive, marks, text, kinds, answers }
    }

    /// The drive goes along, so that what comes next fits it.
    fn add(&mut self, line: String) {
        let mut out = [0; DISCOVERY_ROOM];
        let (number, _) = self.drive.line(&mut self.marks, line.as_bytes(), &mut out);
        *self.kinds.entry(line.get(..2).unwrap_or("none").to_string()).or_default() += 1;
        *self.answers.entry(format!("{number:04X}")).or_default() += 1;
        self.text.extend(line.as_bytes());
        self.text.push(b'\n');
    }

    fn line(&mut self) -> String {
        let kind = self.kind();
        let (namespace, tag) = self.place(!matches!(kind, Some(0x03 | 0x0D | 0x0E)));
        match kind {
            Some(0x01) => manage(namespace, TAGS_EACH),
            Some(0x02) => release(namespace),
            Some(0x03) => self.load(namespace, tag),
            Some(0x04) => self.replace(namespace, tag),
            Some(0x05) => clear_one(namespace, tag),
            Some(0x06) => clear_all(namespace),
            Some(0x07) => self.io(namespace, tag),
            Some(0x08) => set_features(self.rng.pick(&[0x09, 0x0A, 0x11, 0x12, 0x1B, 0x24])),
            Some(0x09) => get_features(),
            Some(0x0A) => boot_write(self.rng.below(2) as u8),
            Some(0x0B) if self.rng.once_in(8) => power_cycle(),
            Some(0x0B) => controller_reset(),
            Some(0x0C) => discovery(),
            Some(0x0D) => self.load_by_message(namespace, tag),
            Some(0x0E) => self.load_wrapped(namespace, tag),
            _ => self.no_frame(),
        }
    }

    /// A namespace and a tag, chosen from several for a slot that is loaded, or one that is not.
    fn place(&mut self, loaded: bool) -> (u8, u16) {
        let mut place = (0, 0);
        for _ in 0..3 {
            place = (self.rng.below(NAMESPACES), self.rng.below(TAGS_EACH.into()));
            if (self.drive.keys[(place.0 * TAGS + place.1) * SLOT] != 0) == loaded {
                break;
            }
        }
        (1 + place.0 as u8, place.1 as u16)
    }

    fn kind(&mut self) -> Option<u8> {
        let mut turn = self.rng.below(TURNS);
        for &(kind, turns) in self.recipe.kinds {
            if turn < turns {
                return Some(kind);
            }
            turn -= turns;
        }
        None
    }

    /// One of 256 KeyUIDs of 16 bytes, which differ in the last and some in the eighth, and its one
    /// key, or rarely another.
    fn material(&mut self) -> (String, u8) {
        let number = self.rng.byte();
        let key = if self.rng.once_in(64) { !number } else { number };
        let eighth = number % 4;
        (format!("{}{eighth:02X}{}{number:02X}", "5A".repeat(7), "A5".repeat(7)), key)
    }

    fn load(&mut self, namespace: u8, tag: u16) -> String {
        let (uid, key) = self.material();
        load(namespace, tag, &uid, key)
    }

    /// One in four is damaged.
    fn load_by_message(&mut self, namespace: u8, tag: u16) -> String {
        let (uid, key) = self.material();
        match self.rng.once_in(4) {
            true => damaged(&mut self.rng, namespace, tag, &uid, key),
            false => message_load(namespace, tag, &uid, key),
        }
    }

    /// One in four does not open: a bit of it is wrong.
    fn load_wrapped(&mut self, namespace: u8, tag: u16) -> String {
        let (uid, key) = self.material();
        let mut wrapped = wrap(&PROGRAM_KEK, &[key; KEY]);
        if self.rng.once_in(4) {
            wrapped[self.rng.below(WRAPPED)] ^= 1 << self.rng.below(8);
        }
        wrapped_frame(namespace, tag, &uid, &wrapped)
    }

    fn replace(&mut self, namespace: u8, tag: u16) -> String {
        let at = (usize::from(namespace - 1) * TAGS + usize::from(tag)) * SLOT;
        let length = usize::from(self.drive.keys[at]);
        let (uid, key) = self.material();
        let old = if length == 0 { uid.clone() } else { hex(&self.drive.keys[at + 1..][..length]) };
        replace(namespace, tag, &old, &uid, key)
    }

    /// 1 to 256 blocks, as many of 1 as of 256.
    fn io(&mut self, namespace: u8, tag: u16) -> String {
        let most = 1 << self.rng.below(9);
        let count = most - self.rng.below(most / 2 + 1);
        let first = self.rng.below(BLOCKS - count + 1);
        let opcode = self.rng.pick(&[WRITE, WRITE, WRITE, READ, READ, COMPARE, VERIFY]);
        io(opcode, namespace.into(), tag, first as u64, count as u16 - 1)
    }

    fn no_frame(&mut self) -> String {
        let whole = write(1, 0, 0, 0);
        match self.rng.below(6) {
            0 => String::new(),
            1 => whole.to_lowercase().replace('0', "o"),
            2 => whole[..129].to_string(),
            3 => whole[..128].to_string(),
            4 => format!("{whole:0<0$}", self.recipe.longest),
            _ => "FF".to_string() + &whole[2..],
        }
    }
}
