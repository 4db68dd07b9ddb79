//! How often each number of the paper was met, by what gave it, and what a run must meet besides.

use model::numbers::{DISCOVERY_ROOM, FRAME, ROOM};
use model::status::*;

use crate::oracle::Function;

const COLUMNS: [&str; 7] =
    ["start", "line", "session", "in sessions", "discovery", "message", "unwrap"];
const IN_SESSIONS: usize = 3;
/// The function of a host.
const READ: usize = 4;
/// The functions of a key office.
const WRITE: usize = 5;
const UNWRAP: usize = 6;

/// Every number of the paper is below this.
const LIMIT: usize = 0x0800;

/// What a line can be answered with; then what refuses a call.
const OF_LINES: [u16; 24] = [
    DONE,
    OPCODE,
    FIELD,
    NAMESPACE,
    TAG,
    WRONG_KEY,
    BLOCK_RANGE,
    LOCK_FIXED,
    WRITE_LOCKED,
    LINE,
    KIND,
    LENGTH,
    KEY_UID_LENGTH,
    MANAGED,
    NOT_MANAGED,
    TAG_COUNT,
    POOL,
    OCCUPIED,
    EMPTY,
    OLD_KEY_UID,
    OTHER_KEY,
    INTEGRITY,
    MESSAGE,
    MESSAGE_KEY_UID,
];
const OF_CALLS: [u16; 3] = [STORE, UNSOUND, OUTPUT];
const OF_READS: [u16; 3] = [DONE, OUTPUT, DISCOVERY];
const OF_WRITES: [u16; 4] = [DONE, OUTPUT, MESSAGE, MESSAGE_KEY_UID];
const OF_UNWRAPS: [u16; 2] = [DONE, INTEGRITY];

/// The answer to an accepted load.
const TAKEN: &[u8] = b"0000\n";

/// Of lines of the kinds 0C, 0D and 0E, of reads, of writes and of wrapping.
#[derive(Clone, Copy)]
pub enum Event {
    /// The output was long enough for any other line.
    NoRoom,
    LineRefused,
    LineAnswered,
    RefusedInSession,
    AnsweredInSession,
    NoTper,
    NoKeyPerIo,
    MessageTaken,
    MessageTakenInSession,
    /// Read as a frame, and refused for its message.
    LongestLine,
    ShortMessage,
    LongMessage,
    WrappedTaken,
    WrappedTakenInSession,
    Wrapped,
}

const EVENTS: [&str; 15] = [
    "line 0C, 13 to 228 bytes of output",
    "line of kind 0C, answer of 5 bytes",
    "line 0C, answer of 229 bytes",
    "line of kind 0C in a session, answer of 5 bytes",
    "line 0C in a session, answer of 229 bytes",
    "discovery, TPer absent",
    "discovery, Key Per I/O absent",
    "line of kind 0D, accepted",
    "line of kind 0D in a session, accepted",
    "line of kind 0D and 1,024 digits, 0717",
    "message, 400 bytes written",
    "message, 408 bytes written",
    "line of kind 0E, accepted",
    "line of kind 0E in a session, accepted",
    "key wrapped",
];

/// Why a line is no frame line, by the reasons of 07 01 in their order; the last is besides counted as
/// a bad digit.
const FAULTS: [&str; 5] = ["empty", "too long", "bad digit", "odd", "bad digit past place 255"];
const FAR: usize = 4;
const FAULT_COLUMNS: [&str; 2] = [COLUMNS[Function::Line as usize], COLUMNS[IN_SESSIONS]];

pub struct Tally {
    counts: Vec<[u64; COLUMNS.len()]>,
    events: [u64; EVENTS.len()],
    faults: [[u64; FAULT_COLUMNS.len()]; FAULTS.len()],
    pub calls: u64,
}

impl Tally {
    pub fn new() -> Tally {
        let counts = vec![[0; COLUMNS.len()]; LIMIT];
        let faults = [[0; FAULT_COLUMNS.len()]; FAULTS.len()];
        Tally { counts, events: [0; EVENTS.len()], faults, calls: 0 }
    }

    pub fn call(&mut self, function: Function, number: u16) {
        self.calls += 1;
        self.counts[usize::from(number)][function as usize] += 1;
    }

    pub fn read(&mut self, number: u16) {
        self.calls += 1;
        self.counts[usize::from(number)][READ] += 1;
    }

    pub fn write(&mut self, number: u16, written: usize) {
        self.calls += 1;
        self.counts[usize::from(number)][WRITE] += 1;
        match written {
            400 => self.event(Event::ShortMessage),
            408 => self.event(Event::LongMessage),
            _ => {}
        }
    }

    pub fn unwrap(&mut self, number: u16) {
        self.counts[usize::from(number)][UNWRAP] += 1;
    }

    pub fn event(&mut self, event: Event) {
        self.events[event as usize] += 1;
    }

    /// An answer 07 01: its reason, and whether the place's high byte, which is the last, is zero.
    fn fault(&mut self, answer: &[u8], column: usize) {
        self.faults[usize::from(answer[5] - b'1')][column] += 1;
        if answer[8..10] != *b"00" {
            self.faults[FAR][column] += 1;
        }
    }

    /// A line, what it was answered, and the output that it had.
    pub fn line(&mut self, line: &[u8], answer: &[u8], out: usize) {
        match answer.len() {
            _ if answer.starts_with(b"0701") => self.fault(answer, 0),
            0 if line == b"0C" && (ROOM..DISCOVERY_ROOM).contains(&out) => {
                self.event(Event::NoRoom)
            }
            DISCOVERY_ROOM => self.event(Event::LineAnswered),
            5 if line.starts_with(b"0C") => self.event(Event::LineRefused),
            5 if line.starts_with(b"0D") && answer == TAKEN => self.event(Event::MessageTaken),
            5 if line.starts_with(b"0E") && answer == TAKEN => self.event(Event::WrappedTaken),
            5 if line.len() == 2 * FRAME && answer == b"0717\n" => self.event(Event::LongestLine),
            _ => {}
        }
    }

    /// A text and what its lines were answered, nothing if the call was refused.
    pub fn answers(&mut self, text: &[u8], out: &[u8]) {
        let lines = text.split(|&byte| byte == b'\n');
        for (line, answer) in lines.zip(out.split_inclusive(|&byte| byte == b'\n')) {
            let digit = |&byte: &u8| (byte as char).to_digit(16).expect("a digit") as usize;
            let number = answer[..4].iter().fold(0, |number, byte| number * 16 + digit(byte));
            self.counts[number][IN_SESSIONS] += 1;
            match answer.len() {
                _ if answer.starts_with(b"0701") => self.fault(answer, 1),
                DISCOVERY_ROOM => self.event(Event::AnsweredInSession),
                5 if line.starts_with(b"0C") => self.event(Event::RefusedInSession),
                5 if line.starts_with(b"0D") && answer == TAKEN => {
                    self.event(Event::MessageTakenInSession);
                }
                5 if line.starts_with(b"0E") && answer == TAKEN => {
                    self.event(Event::WrappedTakenInSession);
                }
                _ => {}
            }
        }
    }

    pub fn add(&mut self, other: &Tally) {
        self.calls += other.calls;
        for (sums, counts) in self.counts.iter_mut().zip(&other.counts) {
            sums.iter_mut().zip(counts).for_each(|(sum, count)| *sum += count);
        }
        self.events.iter_mut().zip(&other.events).for_each(|(sum, count)| *sum += count);
        let faults = self.faults.iter_mut().flatten().zip(other.faults.iter().flatten());
        faults.for_each(|(sum, count)| *sum += count);
    }

    pub fn print(&self) {
        println!("number{}", COLUMNS.map(|column| format!("{column:>14}")).concat());
        let mut numbers = [&OF_LINES[..], &OF_CALLS, &[DISCOVERY]].concat();
        numbers.sort();
        for number in numbers {
            let counts = self.counts[usize::from(number)];
            println!("{number:04X}  {}", counts.map(|count| format!("{count:>14}")).concat());
        }
        for (event, count) in EVENTS.iter().zip(self.events) {
            println!("{event:<48}{count:>14}");
        }
        println!("{:<48}{}", "0701", FAULT_COLUMNS.map(|column| format!("{column:>14}")).concat());
        for (fault, counts) in FAULTS.iter().zip(self.faults) {
            println!("{fault:<48}{}", counts.map(|count| format!("{count:>14}")).concat());
        }
    }

    /// The numbers and faults that were never met where they can be, and the events that never came.
    pub fn missed(&self) -> Vec<String> {
        let start = [DONE, STORE, UNSOUND].map(|number| (number, Function::Start as usize));
        let line =
            OF_LINES.iter().chain(&OF_CALLS).map(|&number| (number, Function::Line as usize));
        let session =
            OF_CALLS.iter().chain(&[DONE]).map(|&number| (number, Function::Session as usize));
        let inside = OF_LINES.iter().map(|&number| (number, IN_SESSIONS));
        let read = OF_READS.map(|number| (number, READ));
        let write = OF_WRITES.map(|number| (number, WRITE));
        let unwrap = OF_UNWRAPS.map(|number| (number, UNWRAP));
        let of_drive = start.into_iter().chain(line).chain(session).chain(inside);
        let wanted = of_drive.chain(read).chain(write).chain(unwrap);
        let numbers = wanted
            .filter(|&(number, column)| self.counts[usize::from(number)][column] == 0)
            .map(|(number, column)| format!("{number:04X} ({})", COLUMNS[column]));
        let events = EVENTS.iter().zip(self.events).filter(|&(_, count)| count == 0);
        let events = events.map(|(event, _)| event.to_string());
        numbers.chain(events).chain(self.missed_faults()).collect()
    }

    fn missed_faults(&self) -> impl Iterator<Item = String> + '_ {
        FAULTS.iter().zip(&self.faults).flat_map(|(fault, counts)| {
            let missed = FAULT_COLUMNS.iter().zip(counts).filter(|&(_, &count)| count == 0);
            missed.map(move |(column, _)| format!("0701, {fault} ({column})"))
        })
    }
}
