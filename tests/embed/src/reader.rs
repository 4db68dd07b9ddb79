//! The host's reader, the proved one and the model's side by side: every read goes to both, each
//! over its own memory, and afterwards the two must have told the same and hold the same.

use embed::proved;
use model::discovery::{read, Fields};
use model::lines::hex;
use model::status;

use crate::broken::Rule;
use crate::pair::Difference;
use crate::places::{places, places_of, PLACES};
use crate::tally::{Event, Tally};

/// How many bytes or numbers lie on each side, and must not change.
const GUARD: usize = 61;
const GUARD_BYTE: u8 = 0xA5;
/// What no place is likely to hold, so that every number written is seen.
const BLANK: u32 = 0x7E7E_7E7E;

const TPER_FOUND: usize = 33;
const KEY_PER_IO_FOUND: usize = 41;

/// The most of the data that a difference shows.
const SHOWN: usize = 512;

/// What a reader is given.
#[derive(Clone, Copy)]
pub struct Given<'a> {
    pub data: &'a [u8],
    /// What lies right behind the data, and is none of it.
    pub behind: &'a [u8],
    /// How many numbers the fields have room for.
    pub room: usize,
}

#[derive(PartialEq, Eq)]
struct Memory {
    bytes: Vec<u8>,
    numbers: Vec<u32>,
    /// Where the data begins.
    start: usize,
}

pub struct Reader {
    broken: Option<Rule>,
    pub tally: Tally,
}

impl<'a> Given<'a> {
    /// With room for one number more than there are.
    pub fn of(data: &'a [u8]) -> Given<'a> {
        Given { data, behind: &[], room: PLACES + 1 }
    }
}

impl Memory {
    fn new(given: &Given) -> Memory {
        // The data begins at all kinds of addresses.
        let start = GUARD + given.data.len() % 8;
        let mut bytes = vec![GUARD_BYTE; start];
        bytes.extend(given.data);
        bytes.extend(given.behind);
        bytes.resize(bytes.len() + GUARD, GUARD_BYTE);
        Memory { bytes, numbers: vec![BLANK; GUARD + given.room + GUARD], start }
    }

    fn by_proved(&mut self, given: &Given) -> u16 {
        let data = &self.bytes[self.start..][..given.data.len()];
        proved::discovery(data, &mut self.numbers[GUARD..][..given.room])
    }

    fn by_model(&mut self, given: &Given) -> u16 {
        if given.room < PLACES {
            return status::OUTPUT;
        }
        match read(given.data) {
            Ok(found) => {
                self.numbers[GUARD..][..PLACES].copy_from_slice(&places(&found));
                status::DONE
            }
            Err(number) => number,
        }
    }

    /// By the model with a wrong rule.
    fn by_broken(&mut self, given: &Given, rule: Rule) -> u16 {
        let misread = rule.misread(given.data);
        let number = self.by_model(&Given { data: &misread, ..*given });
        rule.spoil_read(number, &mut self.bytes[self.start..], &mut self.numbers[GUARD..]);
        number
    }

    fn places(&self, room: usize) -> &[u32] {
        &self.numbers[GUARD..][..room]
    }
}

impl Reader {
    pub fn new(broken: Option<Rule>) -> Reader {
        Reader { broken, tally: Tally::new() }
    }

    pub fn read(&mut self, given: Given) -> Result<(), Difference> {
        self.places(given).map(|_| ())
    }

    /// Reads what was written from these fields, and must find them.
    pub fn finds(&mut self, data: &[u8], fields: &Fields) -> Result<(), Difference> {
        let found = self.places(Given::of(data))?;
        if found[..PLACES] == places_of(fields) {
            return Ok(());
        }
        let data = hex(data);
        Err(Difference(format!("written from {fields:X?}\n  data:  {data}\n  found: {found:X?}")))
    }

    /// What stands at the places afterwards.
    fn places(&mut self, given: Given) -> Result<Vec<u32>, Difference> {
        let (mut proved, mut model) = (Memory::new(&given), Memory::new(&given));
        let told = proved.by_proved(&given);
        let number = match self.broken {
            Some(rule) => model.by_broken(&given, rule),
            None => model.by_model(&given),
        };
        if told != number || proved != model {
            return Err(difference(&given, [told, number], &proved, &model));
        }
        self.count(number, model.places(given.room));
        Ok(proved.places(given.room).to_vec())
    }

    fn count(&mut self, number: u16, places: &[u32]) {
        self.tally.read(number);
        if number == status::DONE && places[TPER_FOUND] == 0 {
            self.tally.event(Event::NoTper);
        }
        if number == status::DONE && places[KEY_PER_IO_FOUND] == 0 {
            self.tally.event(Event::NoKeyPerIo);
        }
    }
}

fn difference(given: &Given, told: [u16; 2], proved: &Memory, model: &Memory) -> Difference {
    let data = &given.data[..given.data.len().min(SHOWN)];
    let mut lines = vec![
        format!("discovery: {} bytes, room for {} numbers", given.data.len(), given.room),
        format!("  data:   {}", hex(data)),
        format!("  proved: {:04X}, model: {:04X}", told[0], told[1]),
    ];
    let mut bytes = proved.bytes.iter().zip(&model.bytes);
    if let Some(at) = bytes.position(|(one, two)| one != two) {
        let from_data = at as isize - proved.start as isize;
        lines.push(format!("  byte {from_data} of the data was changed"));
    }
    let mut numbers = proved.numbers.iter().zip(&model.numbers);
    if let Some(at) = numbers.position(|(one, two)| one != two) {
        let (place, one, two) =
            (at as isize - GUARD as isize, proved.numbers[at], model.numbers[at]);
        lines.push(format!("  place {place}: proved {one:X}, model {two:X}"));
    }
    Difference(lines.join("\n"))
}
