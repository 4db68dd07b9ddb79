//! Wrong rules for the model, most of them misreadings of the paper: sessions whose answers stay the same under one
//! of them would not notice that rule broken in the proved program.

use model::lines::{clear_one, hex, load_key, message_frame, set_features, unhex};
use model::numbers::{
    BLOCKS, DISCOVERY_ROOM, FRAME, HEAD, INPUT, KEK, KEYS, KEY_UID, MARK, OUTPUT, PROGRAM_KEK,
    REPLACE, ROOM, SLOT, STORE, TAGS,
};
use model::{kmip, room, status, Drive};

use crate::misplaced::fault_told;
use crate::misread::misread;

#[derive(Clone, Copy, PartialEq, Eq)]
pub enum Rule {
    /// Small letters are digits.
    SmallLetters,
    /// What follows the last line feed is no line.
    LastLine,
    /// One byte more than 4,096 is read.
    Input,
    /// A bad tag count is seen before a managed namespace.
    ManageOrder,
    /// A tag count above 32 is bad, as 01 had it.
    OldTagCount,
    /// The pool has 64 slots, as 01 had it.
    OldPool,
    /// Of a tag the low byte counts.
    TagByte,
    /// On a load the first 32 slots of each namespace count for 07 0C.
    NearSlots,
    /// A clear all or a power cycle empties the first 32 slots of a namespace.
    FarKeys,
    /// On a replace the slot whose key goes does not count for 07 0C.
    OwnSlot,
    /// Only the slots of the same namespace count for 07 0C.
    OtherRooms,
    /// Clearing a key clears the namespace's marks.
    ClearMarks,
    /// A release leaves the marks.
    ReleaseMarks,
    /// A write is compared with old marks.
    WriteCheck,
    /// A mark keeps the first eight bytes of a KeyUID, as 01 had it.
    FirstEight,
    /// A mark keeps all bytes of a KeyUID but the sixteenth.
    FirstFifteen,
    /// A mark keeps no length, so that padding hides zeros at a KeyUID's end.
    NoLength,
    /// A power cycle leaves the keys.
    PowerCycle,
    /// A controller level reset locks the boot partitions.
    ControllerReset,
    /// Partition 0 is set before partition 1 is judged.
    Partition,
    /// A line that asks for discovery needs no more room than another.
    DiscoveryRoom,
    /// Every line of kind 0C needs the room of a response.
    DiscoveryKind,
    /// The response's length counts its own 4 bytes.
    DiscoveryLength,
    /// Discovery locks the boot partitions.
    DiscoveryLocks,
    /// A line has at most 140 digits, as 01 had it.
    MessageLength,
    /// A load without a byte of message has the wrong length.
    MessageEmpty,
    /// A message's padding isn't looked at.
    MessagePadding,
    /// A message's items may be nine deep.
    MessageDepth,
    /// A message's namespace isn't compared with the frame's.
    MessageNamespace,
    /// A message's tag isn't compared with the frame's.
    MessageTag,
    /// An attribute may be named UID.
    MessageUid,
    /// Of attributes with the same name the last counts.
    MessageFirst,
    /// A message's KeyUID is judged before all else in it.
    MessageOrder,
    /// A wrapped key's integrity value isn't looked at.
    WrappedIntegrity,
    /// Of a wrapped key's integrity value the first four bytes count.
    WrappedHalf,
    /// What the key wrap with padding has before a key is an integrity value too.
    WrappedPadded,
    /// A wrapped key's steps don't add their numbers.
    WrappedStep,
    /// A wrapped load keeps the wrapped bytes, as many as a key has.
    WrappedKept,
    /// A wrapped load compares the wrapped bytes for 07 0C.
    WrappedConflict,
    /// 07 10 comes before all that looks at the drive.
    WrappedFirst,
    /// 07 10 comes before 00 25.
    WrappedTag,
    /// 07 09 comes before 07 10.
    WrappedOccupied,
    /// 07 09 and 07 0C come before 07 10.
    WrappedLast,
    /// A wrapped key that is refused 07 10 is loaded all the same.
    WrappedRefused,
    /// A load of kind 0E takes a bare key.
    WrappedBare,
    /// A wrapped load isn't compared with other slots.
    WrappedUnchecked,
    /// A power cycle forgets the key-encryption key.
    WrappedPowerCycle,
    /// 07 01 says no reason, as 01 had it.
    NoReason,
    /// 07 01 says its reason and no place.
    ReasonOnly,
    /// The place is that of the last bad digit.
    BadDigitLast,
    /// A bad digit is told of a line that is too long.
    BadDigitFirst,
    /// An odd line is told before a bad digit.
    OddFirst,
    /// An odd line's place is that of its last digit.
    OddPlace,
    /// The place's high byte comes first.
    PlaceHighFirst,
    /// The place is counted from 1.
    PlaceFromOne,
    /// Of the place the low byte counts.
    PlaceByte,
}

const NAMES: [(&str, Rule); 56] = [
    ("small-letters", Rule::SmallLetters),
    ("last-line", Rule::LastLine),
    ("input", Rule::Input),
    ("manage-order", Rule::ManageOrder),
    ("old-tag-count", Rule::OldTagCount),
    ("old-pool", Rule::OldPool),
    ("tag-byte", Rule::TagByte),
    ("near-slots", Rule::NearSlots),
    ("far-keys", Rule::FarKeys),
    ("own-slot", Rule::OwnSlot),
    ("other-rooms", Rule::OtherRooms),
    ("clear-marks", Rule::ClearMarks),
    ("release-marks", Rule::ReleaseMarks),
    ("write-check", Rule::WriteCheck),
    ("first-eight", Rule::FirstEight),
    ("first-fifteen", Rule::FirstFifteen),
    ("no-length", Rule::NoLength),
    ("power-cycle", Rule::PowerCycle),
    ("controller-reset", Rule::ControllerReset),
    ("partition", Rule::Partition),
    ("discovery-room", Rule::DiscoveryRoom),
    ("discovery-kind", Rule::DiscoveryKind),
    ("discovery-length", Rule::DiscoveryLength),
    ("discovery-locks", Rule::DiscoveryLocks),
    ("message-length", Rule::MessageLength),
    ("message-empty", Rule::MessageEmpty),
    ("message-padding", Rule::MessagePadding),
    ("message-depth", Rule::MessageDepth),
    ("message-namespace", Rule::MessageNamespace),
    ("message-tag", Rule::MessageTag),
    ("message-uid", Rule::MessageUid),
    ("message-first", Rule::MessageFirst),
    ("message-order", Rule::MessageOrder),
    ("wrapped-integrity", Rule::WrappedIntegrity),
    ("wrapped-half", Rule::WrappedHalf),
    ("wrapped-padded", Rule::WrappedPadded),
    ("wrapped-step", Rule::WrappedStep),
    ("wrapped-kept", Rule::WrappedKept),
    ("wrapped-conflict", Rule::WrappedConflict),
    ("wrapped-first", Rule::WrappedFirst),
    ("wrapped-tag", Rule::WrappedTag),
    ("wrapped-occupied", Rule::WrappedOccupied),
    ("wrapped-last", Rule::WrappedLast),
    ("wrapped-refused", Rule::WrappedRefused),
    ("wrapped-bare", Rule::WrappedBare),
    ("wrapped-unchecked", Rule::WrappedUnchecked),
    ("wrapped-power-cycle", Rule::WrappedPowerCycle),
    ("no-reason", Rule::NoReason),
    ("reason-only", Rule::ReasonOnly),
    ("bad-digit-last", Rule::BadDigitLast),
    ("bad-digit-first", Rule::BadDigitFirst),
    ("odd-first", Rule::OddFirst),
    ("odd-place", Rule::OddPlace),
    ("place-high-first", Rule::PlaceHighFirst),
    ("place-from-one", Rule::PlaceFromOne),
    ("place-byte", Rule::PlaceByte),
];

/// The slots of 01, in the pool and at most in a namespace.
const OLD_POOL: usize = 64;
const OLD_TAGS: usize = 32;

impl Rule {
    pub fn named(name: &str) -> Option<Rule> {
        NAMES.iter().find(|(known, _)| *known == name).map(|&(_, rule)| rule)
    }

    /// What a program with this rule prints.
    pub fn printed_for(self, text: &[u8]) -> Vec<u8> {
        if text.len() > INPUT + usize::from(self == Rule::Input) {
            return b"070F\n".to_vec();
        }
        let mut lines: Vec<&[u8]> = text.split(|&byte| byte == b'\n').collect();
        if self == Rule::LastLine || text.is_empty() || text.ends_with(b"\n") {
            lines.pop();
        }
        if lines.iter().map(|line| self.room(line)).sum::<usize>() > OUTPUT {
            return b"070F\n".to_vec();
        }
        let mut bench = Bench { drive: Drive::fresh(&PROGRAM_KEK), marks: [0; STORE] };
        lines.into_iter().flat_map(|line| bench.answer(self, line)).collect()
    }

    /// What stays of a KeyUID that is led by its length; an unsound state would be refused.
    fn keep(self, uid: &mut [u8]) {
        match self {
            Rule::FirstEight => uid[1 + 8..].fill(0),
            Rule::FirstFifteen => uid[1 + 15..].fill(0),
            Rule::NoLength => uid[0] = 16 * uid[0].min(1),
            _ => {}
        }
    }

    fn room(self, line: &[u8]) -> usize {
        match self {
            Rule::DiscoveryRoom => ROOM,
            Rule::DiscoveryKind if line.starts_with(b"0C") => DISCOVERY_ROOM,
            _ => room(line),
        }
    }
}

pub struct Bench {
    pub drive: Drive,
    marks: [u8; STORE],
}

impl Bench {
    pub fn line(&mut self, line: &[u8]) -> (u16, Vec<u8>) {
        let mut out = vec![0; room(line)];
        let (number, written) = self.drive.line(&mut self.marks, line, &mut out);
        out.truncate(written);
        (number, out)
    }

    /// As the model answers, but for what the wrong rule makes of it.
    fn answer(&mut self, rule: Rule, line: &[u8]) -> Vec<u8> {
        if let Some(out) = self.by_another_line(rule, line) {
            return out;
        }
        let (keys, marks) = (self.drive.keys, self.marks);
        let (number, out) = self.line(line);
        if number == status::DONE {
            self.and_then(rule, line, keys, marks);
        }
        self.instead(rule, line, number, &out).unwrap_or(out)
    }

    /// For rules by which a line says something else.
    fn by_another_line(&mut self, rule: Rule, line: &[u8]) -> Option<Vec<u8>> {
        match rule {
            Rule::SmallLetters => Some(self.line(&line.to_ascii_uppercase()).1),
            Rule::WriteCheck if line.starts_with(b"0701") => {
                let (number, out) = self.line(&[b"0702", &line[4..]].concat());
                (number == status::WRONG_KEY).then_some(out)
            }
            Rule::MessageLength if line.len() > 2 * REPLACE => Some(b"0701020000\n".to_vec()),
            Rule::MessagePadding
            | Rule::MessageDepth
            | Rule::MessageNamespace
            | Rule::MessageTag
            | Rule::MessageUid
            | Rule::MessageFirst => {
                let (namespace, tag, message) = message_of(line)?;
                let message = misread(rule, &message, namespace, tag);
                Some(self.line(message_frame(namespace, tag, &message).as_bytes()).1)
            }
            Rule::WrappedIntegrity
            | Rule::WrappedHalf
            | Rule::WrappedPadded
            | Rule::WrappedStep
            | Rule::WrappedKept => self.misopened(rule, line),
            Rule::WrappedBare if line.starts_with(b"0E") => {
                let (number, out) = self.line(&[b"03", &line[2..]].concat());
                (number != status::LENGTH).then_some(out)
            }
            _ => None,
        }
    }

    /// What an accepted line does besides, or does not do.
    fn and_then(&mut self, rule: Rule, line: &[u8], mut keys: [u8; KEYS], marks: [u8; STORE]) {
        match (rule, &line[..2]) {
            (Rule::FarKeys, b"06" | b"0B") => {
                let far = far_slots(&mut self.drive.keys).zip(far_slots(&mut keys));
                far.for_each(|(now, before)| now.copy_from_slice(before));
            }
            (Rule::ClearMarks, b"05" | b"06") => {
                let namespace = usize::from(byte(line, 1)) - 1;
                self.marks[namespace * BLOCKS * MARK..][..BLOCKS * MARK].fill(0);
            }
            (Rule::ReleaseMarks, b"02") => self.marks = marks,
            (Rule::PowerCycle, b"0B") => self.drive.keys = keys,
            (Rule::WrappedPowerCycle, b"0B") if line == b"0B01" => self.drive.kek = [0; KEK],
            (Rule::ControllerReset, b"0B") | (Rule::DiscoveryLocks, b"0C") => {
                self.drive.locks = [2; 2];
            }
            _ => {}
        }
    }

    /// Another answer than the model's, and what comes with it.
    fn instead(&mut self, rule: Rule, line: &[u8], number: u16, out: &[u8]) -> Option<Vec<u8>> {
        match (rule, line.get(..2).unwrap_or(b""), number) {
            (Rule::ManageOrder, b"01", status::MANAGED) if bad_count(line) => {
                Some(b"0707\n".to_vec())
            }
            (Rule::OldTagCount, b"01", status::DONE) if usize::from(byte(line, 2)) > OLD_TAGS => {
                Some(self.unmanaged(line, b"0707\n"))
            }
            (Rule::OldPool, b"01", status::DONE) if self.allocated() > OLD_POOL => {
                Some(self.unmanaged(line, b"0708\n"))
            }
            (Rule::TagByte, kind, status::TAG) => Some(self.line(&low_tag(kind, line)).1),
            (Rule::NearSlots, b"03" | b"0D" | b"0E", status::OTHER_KEY) => {
                Some(self.near_slots(line))
            }
            (Rule::OwnSlot, b"04", status::OTHER_KEY) => Some(self.own_slot(line)),
            (Rule::OtherRooms, _, status::OTHER_KEY) => Some(self.other_rooms(line)),
            (Rule::FirstEight | Rule::FirstFifteen | Rule::NoLength, _, status::WRONG_KEY) => {
                Some(self.kept_by(rule, line))
            }
            (Rule::Partition, b"08", status::LOCK_FIXED) => {
                self.line(set_features(u32::from(byte(line, 1) & 7)).as_bytes());
                None
            }
            (Rule::DiscoveryLength, b"0C", status::DONE) => {
                Some([b"000000000070", &out[12..]].concat())
            }
            (Rule::MessageEmpty, b"0D", status::MESSAGE) if line.len() == 8 => {
                Some(b"0703\n".to_vec())
            }
            (Rule::MessageOrder, b"0D", status::MESSAGE) if bad_key_uid(&message_of(line)?.2) => {
                Some(b"0718\n".to_vec())
            }
            (_, _, status::LINE) => fault_told(rule, line, out),
            (_, b"0E", _) => self.misjudged(rule, line, number),
            _ => None,
        }
    }

    /// Answers a refused read again with no more of the KeyUIDs in slots and marks than the rule keeps.
    fn kept_by(&mut self, rule: Rule, line: &[u8]) -> Vec<u8> {
        let (keys, marks) = (self.drive.keys, self.marks);
        let slots = self.drive.keys.chunks_exact_mut(SLOT);
        let uids = slots.map(|slot| &mut slot[..HEAD]).chain(self.marks.chunks_exact_mut(MARK));
        uids.for_each(|uid| rule.keep(uid));
        let out = self.line(line).1;
        (self.drive.keys, self.marks) = (keys, marks);
        out
    }

    fn allocated(&self) -> usize {
        self.drive.counts.iter().map(|&count| usize::from(count)).sum()
    }

    /// Takes back what a manage did.
    fn unmanaged(&mut self, line: &[u8], answer: &[u8]) -> Vec<u8> {
        self.drive.counts[usize::from(byte(line, 1)) - 1] = 0;
        answer.to_vec()
    }

    /// Answers a refused load again with the far slots out of sight.
    fn near_slots(&mut self, line: &[u8]) -> Vec<u8> {
        self.out_of_sight(line, |keys| far_slots(keys).for_each(|slots| slots.fill(0)))
    }

    /// Answers a refused load again with less to be seen of the slots. What it loads was zero.
    pub fn out_of_sight(&mut self, line: &[u8], hide: impl Fn(&mut [u8; KEYS])) -> Vec<u8> {
        let keys = self.drive.keys;
        hide(&mut self.drive.keys);
        let out = self.line(line).1;
        self.drive.keys.iter_mut().zip(keys).for_each(|(byte, before)| *byte |= before);
        out
    }

    /// Clears the slot of a refused replace and loads it.
    fn own_slot(&mut self, line: &[u8]) -> Vec<u8> {
        let (drive, old) = (self.drive.clone(), 2 * usize::from(byte(line, 4)));
        let tag = u16::from(byte(line, 2));
        self.line(clear_one(byte(line, 1), tag).as_bytes());
        let (number, out) = self.line(&[b"03", &line[2..8], &line[10 + old..]].concat());
        if number != status::DONE {
            self.drive = drive;
        }
        out
    }

    /// Answers the line again with the other namespaces' slots out of sight.
    fn other_rooms(&mut self, line: &[u8]) -> Vec<u8> {
        let room = (usize::from(byte(line, 1)) - 1) * TAGS * SLOT;
        let own = room..room + TAGS * SLOT;
        let mut keys = std::mem::replace(&mut self.drive.keys, [0; KEYS]);
        self.drive.keys[own.clone()].copy_from_slice(&keys[own.clone()]);
        let out = self.line(line).1;
        keys[own.clone()].copy_from_slice(&self.drive.keys[own]);
        self.drive.keys = keys;
        out
    }
}

/// Byte `at` of a line of good digits.
fn byte(line: &[u8], at: usize) -> u8 {
    let digit = |at: usize| (line[at] as char).to_digit(16).expect("a digit") as u8;
    digit(2 * at) << 4 | digit(2 * at + 1)
}

/// The line with zero for its tag's high byte. A message says its tag too, so its load becomes one of kind 03.
fn low_tag(kind: &[u8], line: &[u8]) -> Vec<u8> {
    if let (b"0D", Some((namespace, tag, message))) = (kind, message_of(line)) {
        let taken = kmip::load(&message, namespace, tag).expect("a load");
        return load_key(namespace, tag & 0xFF, &hex(taken.uid), taken.key).into_bytes();
    }
    let at = if kind == b"07" { 2 * (1 + 53) } else { 2 * 3 };
    [&line[..at], b"00", &line[at + 2..]].concat()
}

pub fn is_digit(byte: &u8) -> bool {
    matches!(byte, b'0'..=b'9' | b'A'..=b'F')
}

/// The bytes of a frame line.
pub fn frame_of(line: &[u8]) -> Option<Vec<u8>> {
    if line.len() % 2 == 1 || line.len() > 2 * FRAME || !line.iter().all(is_digit) {
        return None;
    }
    Some(unhex(std::str::from_utf8(line).ok()?))
}

/// Namespace, tag and message of a line of kind 0D, if it is a frame of at least 4 bytes.
fn message_of(line: &[u8]) -> Option<(u8, u16, Vec<u8>)> {
    match frame_of(line)?[..] {
        [0x0D, namespace, t0, t1, ref message @ ..] => {
            Some((namespace, u16::from_le_bytes([t0, t1]), message.to_vec()))
        }
        _ => None,
    }
}

/// Whether what looks like a Unique Identifier has a bad length.
fn bad_key_uid(message: &[u8]) -> bool {
    let mut heads = message.windows(8).filter(|head| head.starts_with(&[0x42, 0x00, 0x94, 0x07]));
    heads.next().is_some_and(|head| {
        let good = 1..=KEY_UID as u32;
        !good.contains(&u32::from_be_bytes([head[4], head[5], head[6], head[7]]))
    })
}

/// The slots behind the first 32 of each namespace.
fn far_slots(keys: &mut [u8; KEYS]) -> impl Iterator<Item = &mut [u8]> {
    keys.chunks_exact_mut(TAGS * SLOT).map(|slots| &mut slots[OLD_TAGS * SLOT..])
}

fn bad_count(line: &[u8]) -> bool {
    !(1..=TAGS).contains(&usize::from(byte(line, 2)))
}
