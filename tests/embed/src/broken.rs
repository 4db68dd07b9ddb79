//! Wrong rules for the model, one for each thing that is compared: a run with one must end in a
//! difference, else the comparison is blind.

use model::discovery::read;
use model::messages::padding;
use model::numbers::{KEK, KEY, MARK, NAMESPACES, PROGRAM_KEK, ROOM, SLOT, WRAPPED};
use model::wrap::{backward, wrap, wrap_behind, INTEGRITY};
use model::{kmip, status};

use crate::arena::{Arena, Lengths, Lent};
use crate::hostile::{from_digits, to_digits, DIGITS, KEK_AT};
use crate::messages::FRAME_HEAD;
use crate::oracle::{Function, Outcome};
use crate::places::PLACES;
use crate::responses::*;
use crate::wrapper::Work;

#[derive(Clone, Copy)]
pub enum Rule {
    Number,
    Written,
    Lines,
    Image,
    Marks,
    Text,
    Output,
    Guard,
    /// The line 0C needs no more room than another.
    Room,
    /// A mark keeps the first eight bytes of a KeyUID, as 01 had it.
    FirstEight,
    /// Of two features the last counts.
    First,
    /// A short feature is read, as if zeros followed.
    Short,
    Fields,
    Behind,
    Data,
    /// The writer's minor version is 1.
    Message,
    /// The writer asks for no more room than the message takes.
    MessageRoom,
    /// Where a message is for another tag than its frame, its own counts.
    MessageTag,
    /// Padding is not looked at.
    Padding,
    /// 07 01 says no reason, as 01 had it.
    NoReason,
    /// The place is that of the last bad digit.
    BadDigitLast,
    /// A bad digit is told of a line that is too long.
    BadDigitFirst,
    /// An odd line is told before a bad digit.
    OddFirst,
    /// The place's high byte comes first.
    PlaceHighFirst,
    /// Of the place the low byte counts.
    PlaceByte,
    /// A drive starts with the program's key-encryption key, whatever was given.
    StartKek,
    /// A wrapped key is opened with the program's key-encryption key, whatever the image has.
    WrappedKek,
    /// Of a wrapped key's integrity value the first four bytes count.
    WrappedHalf,
    /// 07 09 comes before 07 10.
    WrappedLate,
    /// What stands before a key is wrapped in the integrity value's place.
    WrapFirst,
    /// The first eight bytes of a key that was opened are zero.
    UnwrapValue,
    /// What does not open is left as it was.
    UnwrapLeft,
}

/// Where a message has the last byte of its minor version.
const MINOR_AT: usize = 51;

impl Rule {
    pub fn named(name: &str) -> Option<Rule> {
        Some(match name {
            "number" => Rule::Number,
            "written" => Rule::Written,
            "lines" => Rule::Lines,
            "image" => Rule::Image,
            "marks" => Rule::Marks,
            "text" => Rule::Text,
            "output" => Rule::Output,
            "guard" => Rule::Guard,
            "room" => Rule::Room,
            "first-eight" => Rule::FirstEight,
            "first" => Rule::First,
            "short" => Rule::Short,
            "fields" => Rule::Fields,
            "behind" => Rule::Behind,
            "data" => Rule::Data,
            "message" => Rule::Message,
            "message-room" => Rule::MessageRoom,
            "message-tag" => Rule::MessageTag,
            "padding" => Rule::Padding,
            "no-reason" => Rule::NoReason,
            "bad-digit-last" => Rule::BadDigitLast,
            "bad-digit-first" => Rule::BadDigitFirst,
            "odd-first" => Rule::OddFirst,
            "place-high-first" => Rule::PlaceHighFirst,
            "place-byte" => Rule::PlaceByte,
            "start-kek" => Rule::StartKek,
            "wrapped-kek" => Rule::WrappedKek,
            "wrapped-half" => Rule::WrappedHalf,
            "wrapped-late" => Rule::WrappedLate,
            "wrap-first" => Rule::WrapFirst,
            "unwrap-value" => Rule::UnwrapValue,
            "unwrap-left" => Rule::UnwrapLeft,
            _ => return None,
        })
    }

    /// Makes the model's outcome, or its memory, that of a drive with the wrong rule.
    pub fn spoil(
        self,
        function: Function,
        lengths: &Lengths,
        outcome: &mut Outcome,
        arena: &mut Arena,
    ) {
        let given = outcome.number;
        let met = |number: u16| function == Function::Line && given == number;
        let open = outcome.lines > 0 && !arena.text(lengths.text).ends_with(b"\n");
        let cramped = lengths.out >= ROOM && arena.text(lengths.text) == b"0C";
        let wider = Lengths { out: lengths.out + 1, ..*lengths };
        match self {
            Rule::Number if met(status::OLD_KEY_UID) => outcome.number = status::OTHER_KEY,
            Rule::Written if met(status::UNSOUND) => outcome.written = 5,
            Rule::Lines if open => outcome.lines -= 1,
            Rule::Image if met(status::OCCUPIED) => arena.lend(lengths).image[25_000] ^= 1,
            Rule::Marks if met(status::WRONG_KEY) => arena.lend(lengths).marks[4000] ^= 1,
            Rule::Text if met(status::TAG_COUNT) => arena.lend(lengths).text[0] ^= 1,
            Rule::Output if met(status::BLOCK_RANGE) => arena.lend(lengths).out[12] ^= 1,
            Rule::Guard if met(status::OUTPUT) => arena.lend(&wider).out[lengths.out] ^= 1,
            Rule::Room if met(status::OUTPUT) && cramped => outcome.number = status::DONE,
            Rule::FirstEight if met(status::WRONG_KEY) => {
                outcome.number = first_eight(arena.lend(lengths));
            }
            Rule::MessageTag if met(status::MESSAGE) => {
                outcome.number = other_frame(arena.lend(lengths), take_tag_of_message);
            }
            Rule::Padding if met(status::MESSAGE) => {
                outcome.number = other_frame(arena.lend(lengths), zero_padding);
            }
            Rule::NoReason if met(status::LINE) => outcome.written = 5,
            _ if met(status::LINE) => self.spoil_fault(arena.lend(lengths)),
            _ => self.spoil_wrapped(function, arena.lend(lengths), outcome),
        }
    }

    /// The rules of wrapped loads, and of the key that opens them.
    fn spoil_wrapped(self, function: Function, lent: Lent, outcome: &mut Outcome) {
        let given = outcome.number;
        let carried = function == Function::Line && lent.text.starts_with(b"0E");
        let met = |number: u16| carried && given == number;
        match self {
            Rule::StartKek if function == Function::Start && given == status::DONE => {
                lent.image[KEK_AT..].copy_from_slice(&PROGRAM_KEK);
            }
            Rule::WrappedKek if met(status::DONE) && lent.image[KEK_AT..] != PROGRAM_KEK => {
                outcome.number = status::INTEGRITY;
            }
            Rule::WrappedHalf if met(status::INTEGRITY) => {
                outcome.number = other_wrapped(lent, mend_half);
            }
            Rule::WrappedLate if met(status::INTEGRITY) => {
                let opened = other_wrapped(lent, |kek, _| wrap(kek, &[0; KEY]));
                outcome.number = if opened == status::OCCUPIED { opened } else { given };
            }
            _ => {}
        }
    }

    /// Makes what the model made of a key that of an office with the wrong rule.
    pub fn spoil_work(
        self,
        work: Work,
        kek: &[u8; KEK],
        before: &[u8; WRAPPED],
        number: u16,
        after: &mut [u8; WRAPPED],
    ) {
        let first = u64::from_be_bytes(*before.first_chunk().expect("eight bytes"));
        match (self, work, number) {
            (Rule::WrapFirst, Work::Wrap, _) => {
                *after = wrap_behind(kek, first, before.last_chunk().expect("a key"));
            }
            (Rule::UnwrapValue, Work::Unwrap, status::DONE) => after[..8].fill(0),
            (Rule::UnwrapLeft, Work::Unwrap, status::INTEGRITY) => *after = *before,
            _ => {}
        }
    }

    /// Makes the model's answer 07 01 to a line with a bad digit that of a drive with the wrong rule.
    fn spoil_fault(self, Lent { text, out, .. }: Lent) {
        let is_bad = |byte: &u8| !DIGITS.contains(byte);
        let places = (text.iter().position(is_bad), text.iter().rposition(is_bad));
        let (Some(first), Some(last)) = places else { return };
        let [low, high] = (first as u16).to_le_bytes();
        let [last_low, last_high] = (last as u16).to_le_bytes();
        let told = match self {
            Rule::BadDigitFirst => [3, low, high],
            _ if out.starts_with(b"070102") => return,
            Rule::BadDigitLast => [3, last_low, last_high],
            Rule::OddFirst if text.len() % 2 == 1 => [4, 0, 0],
            Rule::PlaceHighFirst => [3, high, low],
            Rule::PlaceByte => [3, low, 0],
            _ => return,
        };
        let mut digits = Vec::new();
        to_digits(&told, &mut digits);
        out[4..10].copy_from_slice(&digits);
    }

    /// Data in which the model finds what a reader with the wrong rule finds in this.
    pub fn misread(self, data: &[u8]) -> Vec<u8> {
        if read(data).is_err() {
            return data.to_vec();
        }
        let mut features = features_of(data);
        match self {
            Rule::First => features.reverse(),
            Rule::Short => features.iter_mut().for_each(pad),
            _ => {}
        }
        response(&data[..HEADER], &features)
    }

    /// Makes the model's memory that of a reader with the wrong rule. Guards follow the data, and
    /// the places.
    pub fn spoil_read(self, number: u16, data: &mut [u8], places: &mut [u32]) {
        match self {
            Rule::Fields if number == status::DISCOVERY => places[0] = 0,
            Rule::Behind if number == status::DONE => places[PLACES] = 0,
            Rule::Data if number == status::DONE => data[HEADER] ^= 1,
            _ => {}
        }
    }

    /// Makes the model's message that of a writer with the wrong rule.
    pub fn spoil_message(self, message: &mut [u8]) {
        if let Rule::Message = self {
            message[MINOR_AT] = 1;
        }
    }

    /// What the writer with the rule asks room for.
    pub fn message_room(self, room: usize, message: usize) -> usize {
        match self {
            Rule::MessageRoom => message,
            _ => room,
        }
    }
}

/// The answer to a line when slots and marks have no more than eight bytes of each KeyUID.
fn first_eight(lent: Lent) -> u16 {
    let [mut image, mut marks, mut out] =
        [&*lent.image, &*lent.marks, &*lent.out].map(<[u8]>::to_vec);
    let slots = image[NAMESPACES + 2..].chunks_exact_mut(SLOT);
    for kept in slots.chain(marks.chunks_exact_mut(MARK)) {
        kept[1 + 8..MARK].fill(0);
    }
    let cut = Lent { image: &mut image, marks: &mut marks, text: lent.text, out: &mut out };
    Function::Line.by_model(cut).number
}

/// The answer to a line of kind 0E whose wrapped key is taken for another.
fn other_wrapped(
    lent: Lent,
    misread: impl FnOnce(&[u8; KEK], &[u8; WRAPPED]) -> [u8; WRAPPED],
) -> u16 {
    let kek = *lent.image.last_chunk().expect("a key-encryption key");
    other_frame(lent, |frame| {
        let wrapped = frame.last_chunk_mut().expect("a wrapped key");
        *wrapped = misread(&kek, wrapped);
    })
}

/// The wrapped key itself; but if the integrity value's first half comes out, one of the same key
/// that opens.
fn mend_half(kek: &[u8; KEK], wrapped: &[u8; WRAPPED]) -> [u8; WRAPPED] {
    let mut halves: Vec<u64> =
        wrapped.as_chunks().0.iter().map(|&half| u64::from_be_bytes(half)).collect();
    backward(kek, &mut halves);
    if halves[0] >> 32 != INTEGRITY >> 32 {
        return *wrapped;
    }
    let key: Vec<u8> = halves[1..].iter().flat_map(|half| half.to_be_bytes()).collect();
    wrap(kek, &key.try_into().expect("a key"))
}

/// The answer to a frame that is read as another. The drive stays as it is.
fn other_frame(lent: Lent, misread: impl FnOnce(&mut [u8])) -> u16 {
    let mut frame = from_digits(lent.text).expect("a frame");
    misread(&mut frame);
    let mut line = Vec::new();
    to_digits(&frame, &mut line);
    let [mut image, mut marks, mut out] =
        [&*lent.image, &*lent.marks, &*lent.out].map(<[u8]>::to_vec);
    let other = Lent { image: &mut image, marks: &mut marks, text: &mut line, out: &mut out };
    Function::Line.by_model(other).number
}

/// A tag of a byte is enough to be noticed.
fn take_tag_of_message(frame: &mut [u8]) {
    let (head, message) = frame.split_at_mut(FRAME_HEAD);
    let own = (0..=255).find(|&tag| kmip::load(message, head[1], tag).is_ok());
    if let Some(tag) = own {
        head[2..].copy_from_slice(&tag.to_le_bytes());
    }
}

fn zero_padding(frame: &mut [u8]) {
    let message = &mut frame[FRAME_HEAD..];
    padding(message).into_iter().for_each(|at| message[at] = 0);
}

fn pad(feature: &mut Vec<u8>) {
    let whole = match u16::from_be_bytes([feature[0], feature[1]]) {
        TPER => TPER_LENGTH,
        KEY_PER_IO => KEY_PER_IO_LENGTH,
        _ => 0,
    };
    if feature[3] < whole {
        feature.resize(HEAD + usize::from(whole), 0);
        feature[3] = whole;
    }
}
