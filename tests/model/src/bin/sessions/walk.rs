//! What a host says line by line that has the drive's state before its eyes: mostly what the drive will do, now and
//! then a number at or past its limit, and one line in five broken at one place, some of these at a second one.

use model::lines::*;
use model::numbers::{
    BLOCKS, DISCOVERY_ROOM, FRAME, HEAD, KEY, NAMESPACES, POOL, PROGRAM_KEK, REPLACE, SLOT, STORE,
    TAGS,
};
use model::Drive;

use crate::dice::Dice;
use crate::spoilt;

const BROKEN: usize = 5;
/// One broken line in so many gets a bad digit besides.
const TWICE: usize = 4;

const BAD_DIGITS: &[u8] = b"abcdefgG /:@`\r\0\xFF";

pub struct Walk {
    pub dice: Dice,
    drive: Drive,
    marks: [u8; STORE],
    /// The session's KeyUIDs as digits, alike in their first bytes.
    uids: Vec<String>,
    /// Where most of its commands begin, so that reads meet writes.
    firsts: Vec<u64>,
    /// One line in so many is a load in KMIP form, of which an input holds no more than five.
    messages: usize,
}

impl Walk {
    pub fn new(seed: u64) -> Walk {
        let mut dice = Dice::new(seed);
        let uids = key_uids(&mut dice);
        let firsts = (0..2).map(|_| dice.below(BLOCKS) as u64).chain([0, 0, 255]).collect();
        let messages = dice.pick(&[4, 150, 150, 150]);
        let drive = Drive::fresh(&PROGRAM_KEK);
        Walk { dice, drive, marks: [0; STORE], uids, firsts, messages }
    }

    pub fn line(&mut self) -> Vec<u8> {
        let frame = self.frame();
        let line = if self.dice.once_in(BROKEN) { self.broken(frame) } else { frame.into_bytes() };
        for part in line.split(|&byte| byte == b'\n') {
            self.drive.line(&mut self.marks, part, &mut [0; DISCOVERY_ROOM]);
        }
        line
    }

    fn frame(&mut self) -> String {
        let managed = self.drive.counts.iter().any(|&count| count != 0);
        let loaded = self.drive.keys.iter().step_by(SLOT).any(|&length| length != 0);
        if !managed && !self.dice.once_in(4) {
            return self.manage();
        }
        if self.dice.once_in(self.messages) {
            return self.message();
        }
        if !loaded && self.dice.once_in(2) {
            return if self.dice.once_in(3) { self.wrapped() } else { self.load() };
        }
        match self.dice.below(56) {
            0..=2 => self.manage(),
            3..=4 => release(self.namespace()),
            5..=10 => self.load(),
            11..=16 => self.replace(),
            17 => self.clear(),
            18..=38 => self.command(),
            39..=42 => self.features(),
            43 => get_features(),
            44..=45 => boot_write(self.dice.pick(&[0, 1, 0, 1, 0, 1, 2, 255])),
            46..=47 => hex(&[0x0B, self.dice.pick(&[0, 0, 0, 1, 1, 2])]),
            48..=53 => self.wrapped(),
            _ => discovery() + &"00".repeat(self.dice.pick(&[0, 0, 0, 0, 0, 1, 2, REPLACE])),
        }
    }

    fn count(&self, namespace: u8) -> u16 {
        let index = usize::from(namespace).wrapping_sub(1);
        self.drive.counts.get(index).map_or(0, |&count| count.into())
    }

    fn slot(&self, namespace: u8, tag: u16) -> Option<&[u8]> {
        let at = ((usize::from(namespace).wrapping_sub(1)) % NAMESPACES * TAGS + usize::from(tag))
            * SLOT;
        self.drive.keys.get(at..at + SLOT).filter(|slot| slot[0] != 0)
    }

    fn namespace(&mut self) -> u8 {
        let managed: Vec<u8> = (1..=4).filter(|&number| self.count(number) != 0).collect();
        match self.dice.below(24) {
            0 => self.dice.pick(&[0, 5, 255]),
            3..=13 if !managed.is_empty() => managed[0],
            14.. if !managed.is_empty() => self.dice.pick(&managed),
            _ => self.dice.pick(&[1, 2, 3, 4]),
        }
    }

    fn tag(&mut self, namespace: u8, loaded: bool) -> u16 {
        let count = self.count(namespace);
        let is_loaded = |&tag: &u16| self.slot(namespace, tag).is_some() == loaded;
        let wanted: Vec<u16> = (0..count).filter(is_loaded).collect();
        match self.dice.below(12) {
            0 => self.dice.pick(&[
                count,
                count,
                count + 1,
                count.saturating_sub(1),
                127,
                128,
                256,
                65535,
            ]),
            2..=3 if !wanted.is_empty() => wanted[wanted.len() - 1],
            4.. if !wanted.is_empty() => self.dice.pick(&wanted),
            _ => self.dice.below(usize::from(count).max(1)) as u16,
        }
    }

    /// A KeyUID with its usual key, or now and then one that differs in a byte.
    fn material(&mut self) -> (String, [u8; KEY]) {
        let which = self.dice.below(self.uids.len());
        let mut key = [which as u8 + 1; KEY];
        if self.dice.once_in(6) {
            key[self.dice.pick(&[0, 15, KEY - 1])] ^= 0x80;
        }
        (self.uids[which].clone(), key)
    }

    fn manage(&mut self) -> String {
        let free: Vec<u8> = (1..=4).filter(|&number| self.count(number) == 0).collect();
        let namespace = match free.is_empty() || self.dice.once_in(4) {
            true => self.namespace(),
            false => self.dice.pick(&free),
        };
        // What is left of the pool, and one more.
        let left = POOL - self.drive.counts.iter().map(|&count| usize::from(count)).sum::<usize>();
        let [left, more] = [left, left + 1].map(|count| count.min(TAGS) as u8);
        manage(namespace, self.dice.pick(&[1, 2, 3, 3, 4, 64, 127, 129, 255, 0, left, more]))
    }

    fn load(&mut self) -> String {
        let namespace = self.namespace();
        let loaded = self.dice.once_in(8);
        let tag = self.tag(namespace, loaded);
        let (uid, key) = self.material();
        load_key(namespace, tag, &uid, &key)
    }

    fn message(&mut self) -> String {
        let namespace = self.namespace();
        let loaded = self.dice.once_in(8);
        let tag = self.tag(namespace, loaded);
        let (uid, key) = self.material();
        let message = spoilt::message(&mut self.dice, namespace, tag, &unhex(&uid), &key);
        message_frame(namespace, tag, &message)
    }

    fn wrapped(&mut self) -> String {
        let namespace = self.namespace();
        let loaded = self.dice.once_in(6);
        let tag = self.tag(namespace, loaded);
        let (uid, key) = self.material();
        let wrapped = spoilt::wrapped(&mut self.dice, &key);
        wrapped_frame(namespace, tag, &uid, &wrapped)
    }

    fn replace(&mut self) -> String {
        let namespace = self.namespace();
        let loaded = !self.dice.once_in(8);
        let tag = self.tag(namespace, loaded);
        let held =
            self.slot(namespace, tag).map(|slot| hex(&slot[1..HEAD][..usize::from(slot[0])]));
        let old = match held {
            Some(uid) if !self.dice.once_in(4) => uid,
            _ => self.dice.pick(&self.uids),
        };
        let (new, key) = self.material();
        let line = replace(namespace, tag, &old, &new, 0);
        line[..line.len() - 2 * KEY].to_string() + &hex(&key)
    }

    fn clear(&mut self) -> String {
        let namespace = self.namespace();
        let loaded = !self.dice.once_in(4);
        match self.dice.below(4) {
            0 => clear_all(namespace),
            _ => clear_one(namespace, self.tag(namespace, loaded)),
        }
    }

    fn command(&mut self) -> String {
        let opcode =
            self.dice.pick(&[WRITE, WRITE, WRITE, WRITE, READ, READ, READ, READ, COMPARE, VERIFY]);
        let opcode = if self.dice.once_in(24) { self.dice.roll() as u8 } else { opcode };
        let namespace = self.namespace();
        let tag = self.tag(namespace, true);
        let first = match self.dice.below(16) {
            0 => self.dice.pick(&[256, 257, 1 << 8 | 1 << 32, u64::MAX, u64::MAX - 255]),
            _ => self.dice.pick(&self.firsts),
        };
        let left = BLOCKS.saturating_sub(first as usize) as u16;
        let last = left.saturating_sub(1);
        let field = self.dice.pick(&[0, 0, 0, 1, last / 2, last, last, last, last, left]);
        let line = io(opcode, namespace.into(), tag, first, field);
        match self.dice.below(24) {
            0 => with(&line, 50, self.dice.roll() as u8),
            1..=3 => {
                with(&line, self.dice.pick(&[1, 3, 8, 39, 51, 54, 63]), self.dice.roll() as u8)
            }
            4 => with(&line, self.dice.pick(&[5, 7, 41, 47, 49, 53]), 1),
            _ => line,
        }
    }

    fn features(&mut self) -> String {
        let fields = (self.dice.below(4) | self.dice.below(4) << 3) as u32;
        match self.dice.below(12) {
            0 => set_features(fields | 1 << (6 + self.dice.below(26))),
            1 => set_features(fields | self.dice.pick(&[4, 4 << 3])),
            _ => set_features(fields),
        }
    }

    fn broken(&mut self, frame: String) -> Vec<u8> {
        let mut line = self.broken_once(frame);
        if !line.is_empty() && self.dice.once_in(TWICE) {
            let at = self.dice.below(line.len());
            line[at] = self.dice.pick(BAD_DIGITS);
        }
        line
    }

    /// The line with one thing wrong: a digit, the length, the case, a byte at a limit. Most of what a line says
    /// stands in its first digits, so half of the places are there.
    fn broken_once(&mut self, frame: String) -> Vec<u8> {
        let mut line = frame.into_bytes();
        let near = if self.dice.once_in(2) { line.len() } else { line.len().min(12) };
        let at = self.dice.below(near);
        match self.dice.below(15) {
            0 | 1 => line[at] = self.dice.pick(b"0123456789ABCDEF"),
            2 => line[at] = self.dice.pick(BAD_DIGITS),
            3 => drop(line.remove(at)),
            4 => line.insert(at, self.dice.pick(b"0F\n")),
            5 => line.truncate(at),
            6 => line.truncate(at / 2 * 2),
            7 => line.extend_from_slice(b"00"),
            8 => line.push(b'\r'),
            9 => line.make_ascii_lowercase(),
            10 => line.clear(),
            11 => {
                let most = 2 * self.dice.pick(&[REPLACE, REPLACE, FRAME]);
                let digits = (most + self.dice.below(4)).saturating_sub(1);
                line.resize(digits.max(line.len()), b'0');
            }
            _ => {
                let limits = [0x00, 0x01, 0x0F, 0x10, 0x11, 0x7F, 0x80, 0x81, 0xFF];
                let byte = hex(&[self.dice.pick(&limits)]);
                let has_length = [b"03", b"04", b"0E"].iter().any(|&kind| line.starts_with(kind));
                let at = if has_length && self.dice.once_in(2) { 8 } else { at / 2 * 2 };
                line[at..at + 2].copy_from_slice(byte.as_bytes());
            }
        }
        line
    }
}

/// Five KeyUIDs: two beginnings of one run of bytes, then three times an earlier one with one byte changed, or with a
/// zero byte more, which padding hides. A change behind the eighth byte leaves the length and the first eight bytes.
fn key_uids(dice: &mut Dice) -> Vec<String> {
    let run: Vec<u8> = (0..16).map(|_| dice.pick(&[0x00, 0xAA, 0xA5])).collect();
    let beginning = |_| run[..dice.pick(&[1, 2, 8, 9, 15, 15, 16, 16, 16, 16, 16])].to_vec();
    let mut uids: Vec<Vec<u8>> = (0..2).map(beginning).collect();
    for _ in 0..3 {
        let mut uid = dice.pick(&uids);
        let last = uid.len() - 1;
        match last < 15 && dice.once_in(2) {
            true => uid.push(0),
            false => uid[dice.pick(&[0, last.min(8), last, last])] ^= 0x11,
        }
        uids.push(uid);
    }
    uids.iter().map(|uid| hex(uid)).collect()
}
