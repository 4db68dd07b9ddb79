//! What can be gone through from end to end: every length near a right one, every output length,
//! every value of the bytes that an image begins with, every byte of an image, every value of every
//! byte of a mark, every value of every byte of a frame, and frames of every length. Lines with a
//! bad digit are in `faults`.

use embed::Rng;
use model::lines::*;
use model::numbers::{
    BLOCKS, DISCOVERY_ROOM, FRAME, IMAGE, MARK, NAMESPACES, PROGRAM_KEK, ROOM, STORE,
};
use model::{room, session_room, status, Drive};

use crate::arena::Lengths;
use crate::broken::Rule;
use crate::hostile::{random_kek, random_state};
use crate::oracle::Function;
use crate::pair::{Difference, Pair, State};
use crate::tally::Tally;

const NEAR: usize = 64;
/// The images of layout version 2, which had 32 slots for each namespace, and of 3, which had no
/// key-encryption key.
const OLD_IMAGES: [usize; 2] = [6278, 25_094];
/// The store of layout version 1, whose marks had 9 bytes.
const OLD_STORE: usize = 9216;

/// What is given every output: lines of both rooms, with and without a last line feed.
const TEXTS: [&str; 10] = [
    "",
    "\n",
    "09",
    "09\n",
    "09\n\n0B01",
    "010304\n09\n0B02\n05010000\n09\n09\n",
    "0C",
    "0C\n",
    "0C\n09\n0B00\n",
    "\n0C\n0c\n0C00\n0C",
];

pub struct Sweeps {
    pub pair: Pair,
    /// With room for image and store of twice their lengths.
    wide: Pair,
    rng: Rng,
    /// Where most sweeps start from.
    pub used: State,
}

pub type Done = Result<(), Difference>;

impl Sweeps {
    pub fn new(seed: u64, broken: Option<Rule>) -> Sweeps {
        let rooms = Lengths::right(2 * FRAME + NEAR, 16 * NEAR);
        let twice = Lengths { image: 2 * IMAGE, marks: 2 * STORE, ..rooms };
        let [pair, wide] = [rooms, twice].map(|rooms| Pair::new(rooms, broken));
        Sweeps { pair, wide, rng: Rng::new(seed), used: used() }
    }

    pub fn add_to(&self, tally: &mut Tally) {
        tally.add(&self.pair.tally);
        tally.add(&self.wide.tally);
    }

    pub fn run(&mut self) -> Done {
        self.every_image_byte()?;
        self.starts()?;
        self.lengths()?;
        self.outputs()?;
        self.first_bytes()?;
        self.marks()?;
        self.frames()?;
        self.digits()?;
        self.lines_of_every_length()?;
        self.faults()
    }

    /// A slot has an odd length, so of two neighbours each byte is changed in both ways.
    fn every_image_byte(&mut self) -> Done {
        self.pair.change(|image, marks| random_state(&mut self.rng, image, marks));
        let state = self.pair.save();
        for at in 0..IMAGE {
            self.pair.lay_in_image(at, state.image[at] ^ [0x01, 0xFF][at % 2]);
            say(&mut self.pair, "09", ROOM)?;
            self.pair.lay_in_image(at, state.image[at]);
        }
        Ok(())
    }

    fn starts(&mut self) -> Done {
        let images = [0, 1, IMAGE - 1, IMAGE, IMAGE + 1, 2 * IMAGE];
        for image in images.into_iter().chain(OLD_IMAGES) {
            for marks in stores() {
                self.wide.change(|image, marks| {
                    image.fill(0xEE);
                    marks.fill(0xEE);
                });
                self.wide.start(image, marks, &random_kek(&mut self.rng))?;
            }
        }
        Ok(())
    }

    /// Lines and sessions, with too little room and with enough.
    fn lengths(&mut self) -> Done {
        self.wide.restore(&self.used);
        let image = near(IMAGE).chain(OLD_IMAGES).map(|image| (image, STORE));
        let marks = stores().map(|marks| (IMAGE, marks));
        let both = stores().map(|marks| (IMAGE + 1, marks));
        for (image, marks) in image.chain(marks).chain(both) {
            for (line, text) in [("0B01", "0B01\n0B01"), ("0C", "0C\n0C")] {
                self.wide.say(text.as_bytes());
                let need = room(line.as_bytes());
                for out in [0, need - 1, need, 2 * need] {
                    let lengths = Lengths { image, marks, text: line.len(), out };
                    self.wide.call(Function::Line, lengths)?;
                    self.wide.call(Function::Session, Lengths { text: text.len(), ..lengths })?;
                    self.wide.call(Function::Session, Lengths { text: 0, ..lengths })?;
                }
            }
        }
        Ok(())
    }

    fn outputs(&mut self) -> Done {
        for line in ["09", "0B00", "", "010102", "0G", "0B0", "0C", "0c", "0C00", "0D", "0E", "0F"]
        {
            for out in 0..DISCOVERY_ROOM + 2 * NEAR {
                self.pair.restore(&self.used);
                say(&mut self.pair, line, out)?;
            }
        }
        for text in TEXTS {
            for out in 0..=session_room(text.as_bytes()) + DISCOVERY_ROOM {
                self.pair.restore(&self.used);
                self.pair.say(text.as_bytes());
                self.pair.call(Function::Session, Lengths::right(text.len(), out))?;
            }
        }
        Ok(())
    }

    /// Every value of each tag count and lock byte.
    fn first_bytes(&mut self) -> Done {
        self.pair.restore(&self.used);
        for at in 0..NAMESPACES + 2 {
            for value in 0..=255 {
                self.pair.lay_in_image(at, value);
                say(&mut self.pair, "09", ROOM)?;
                say(&mut self.pair, "0C", DISCOVERY_ROOM)?;
            }
            self.pair.lay_in_image(at, self.used.image[at]);
        }
        Ok(())
    }

    /// Every value of every byte of the first and the last mark of a namespace, read with both keys.
    fn marks(&mut self) -> Done {
        self.pair.restore(&self.used);
        for block in [0, BLOCKS - 1] {
            for at in block * MARK..(block + 1) * MARK {
                for value in 0..=255 {
                    self.pair.lay_in_marks(at, value);
                    for tag in 0..2 {
                        say(&mut self.pair, read(1, tag, block as u64, 0), ROOM)?;
                    }
                }
                self.pair.lay_in_marks(at, self.used.marks[at]);
            }
        }
        Ok(())
    }

    /// Every value of every byte of a frame of each kind.
    fn frames(&mut self) -> Done {
        for frame in frames() {
            for at in (0..frame.len()).step_by(2) {
                for value in 0..=255 {
                    let line = [&frame[..at], &hex(&[value]), &frame[at + 2..]].concat();
                    let out = room(line.as_bytes());
                    self.pair.restore(&self.used);
                    say(&mut self.pair, line, out)?;
                }
            }
        }
        Ok(())
    }

    /// Frames of each kind, and of the kinds around, of every length up to past the longest line.
    fn lines_of_every_length(&mut self) -> Done {
        for kind in (0x00..=0x0F).chain([0xFF]) {
            let line = hex(&[kind]) + &"01".repeat(FRAME + 2);
            for length in 0..=line.len() {
                let out = room(&line.as_bytes()[..length]);
                self.pair.restore(&self.used);
                say(&mut self.pair, &line[..length], out)?;
            }
        }
        Ok(())
    }

    /// Every value of every digit of some lines.
    fn digits(&mut self) -> Done {
        for line in ["010304", "05010000", "09", "0B01", "0C"] {
            for at in 0..line.len() {
                for value in 0..=255 {
                    let mut line = line.as_bytes().to_vec();
                    line[at] = value;
                    let out = room(&line);
                    self.pair.restore(&self.used);
                    say(&mut self.pair, line, out)?;
                }
            }
        }
        Ok(())
    }
}

pub fn say(pair: &mut Pair, line: impl AsRef<[u8]>, out: usize) -> Done {
    let line = line.as_ref();
    pair.say(line);
    pair.call(Function::Line, Lengths::right(line.len(), out)).map(|_| ())
}

/// Lengths around a right one, the shortest, and the double.
fn near(right: usize) -> impl Iterator<Item = usize> {
    (0..NEAR).chain(right - NEAR..=right + NEAR).chain([2 * right])
}

fn stores() -> impl Iterator<Item = usize> {
    near(STORE).chain([OLD_STORE])
}

/// Namespaces 1 and 4 in use, every block of both written, the last slot loaded; two KeyUIDs of
/// namespace 1 have the same first eight bytes and the same length.
fn used() -> State {
    let mut marks = vec![0; STORE];
    let (_, mut drive) = Drive::start(&PROGRAM_KEK, &mut marks);
    let lines = [
        manage(1, 3),
        manage(4, 128),
        load(1, 0, "A0A1A2A3A4A5A6A7A8", 0x11),
        load(1, 1, "A0A1A2A3A4A5A6A7FF", 0x22),
        load(4, 0, "BB", 0x44),
        load(4, 127, "AA", 0x33),
        write(1, 0, 0, 255),
        write(4, 127, 0, 255),
    ];
    for line in lines {
        let (number, _) = drive.line(&mut marks, line.as_bytes(), &mut [0; ROOM]);
        assert_eq!(number, status::DONE, "{line}");
    }
    State { image: drive.to_image().to_vec(), marks }
}

/// One of each kind, accepted by the used drive but for the boot write.
fn frames() -> [String; 14] {
    [
        manage(3, 125),
        release(1),
        load(4, 126, "AA", 0x33),
        replace(1, 0, "A0A1A2A3A4A5A6A7A8", "AA", 0x33),
        clear_one(4, 127),
        clear_all(4),
        read(4, 127, 200, 55),
        set_features(0x0B),
        get_features(),
        boot_write(0),
        power_cycle(),
        discovery(),
        message_load(4, 126, "AA", 0x33),
        wrapped_load(4, 126, "AA", 0x33),
    ]
}
