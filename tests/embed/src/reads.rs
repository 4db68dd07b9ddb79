//! The host's reader over what can be gone through from end to end, and over random data.

use embed::{proved, Rng};
use model::discovery::{own, write};
use model::numbers::{DISCOVERY_ROOM, IMAGE, PROGRAM_KEK, STORE};

use crate::broken::Rule;
use crate::hostile::from_digits;
use crate::pair::Difference;
use crate::places::PLACES;
use crate::reader::{Given, Reader};
use crate::responses::*;

/// A header's length of two bytes ends inside data of so many.
const LONG: usize = 0x1_0004;

pub struct Reads {
    pub reader: Reader,
    rng: Rng,
    /// The drive's own response and one with other bits.
    wholes: [Vec<u8>; 2],
}

type Done = Result<(), Difference>;

impl Reads {
    pub fn new(seed: u64, broken: Option<Rule>) -> Reads {
        let mut rng = Rng::new(seed);
        let other = response(&header(&mut rng), &features(&mut rng));
        Reads { reader: Reader::new(broken), rng, wholes: [write(&own()).to_vec(), other] }
    }

    pub fn run(&mut self) -> Done {
        self.reader.finds(&asked()?, &own())?;
        for whole in self.wholes.clone() {
            self.rooms(&whole)?;
            self.cuts(&whole)?;
            self.ends(&whole)?;
            self.header_lengths(whole.clone())?;
            self.bits(&whole)?;
        }
        self.header_lengths(self.long())?;
        self.twice()?;
        self.unknown()?;
        self.cut_heads()
    }

    /// One read: of fields that were written, of features, or of bytes.
    pub fn step(&mut self) -> Done {
        let data = match self.rng.below(8) {
            0 | 1 => {
                let fields = random_fields(&mut self.rng);
                return self.reader.finds(&write(&fields), &fields);
            }
            2 => random_bytes(&mut self.rng),
            _ => random_features(&mut self.rng),
        };
        let room = match self.rng.below(16) {
            0 => self.rng.below(PLACES),
            1 => PLACES - 1,
            2 => 0,
            3..=8 => PLACES + self.rng.below(4),
            _ => PLACES,
        };
        self.reader.read(Given { room, ..Given::of(&data) })
    }

    /// Rooms around the right one, for data that is a response and for data that is none.
    fn rooms(&mut self, whole: &[u8]) -> Done {
        for data in [whole, &whole[..whole.len() - 1], &whole[..HEADER - 1], &[]] {
            for room in [0, 1, PLACES - 1, PLACES, PLACES + 1, 2 * PLACES] {
                self.reader.read(Given { room, ..Given::of(data) })?;
            }
        }
        Ok(())
    }

    /// Every cut; behind it nothing, the rest that must not be read, and rubbish that may be.
    fn cuts(&mut self, whole: &[u8]) -> Done {
        for cut in 0..=whole.len() {
            let (data, behind) = whole.split_at(cut);
            self.reader.read(Given::of(data))?;
            self.reader.read(Given { behind, ..Given::of(data) })?;
            for more in [1, HEAD, whole.len() - cut, whole.len()] {
                let mut rubbish = vec![0; more];
                self.rng.fill(&mut rubbish);
                self.reader.read(Given::of(&[data, &rubbish].concat()))?;
            }
        }
        Ok(())
    }

    /// Every end that the header can tell, with the rest in the data, behind it, or gone.
    fn ends(&mut self, whole: &[u8]) -> Done {
        let mut told = whole.to_vec();
        for end in 4..=whole.len() + HEAD {
            end_at(&mut told, end);
            let (data, behind) = told.split_at(end.min(whole.len()));
            self.reader.read(Given::of(&told))?;
            self.reader.read(Given { behind, ..Given::of(data) })?;
            self.reader.read(Given::of(data))?;
        }
        Ok(())
    }

    /// A response with zeros behind it, which are features of length 0.
    fn long(&self) -> Vec<u8> {
        let mut data = self.wholes[1].clone();
        data.resize(LONG, 0);
        data
    }

    /// Every value of each byte of the header's length, then some lengths.
    fn header_lengths(&mut self, mut data: Vec<u8>) -> Done {
        for at in 0..4 {
            let old = data[at];
            for value in 0..=255 {
                data[at] = value;
                self.reader.read(Given::of(&data))?;
            }
            data[at] = old;
        }
        for length in HEADER_LENGTHS {
            set_length(&mut data, length);
            self.reader.read(Given::of(&data))?;
        }
        Ok(())
    }

    fn bits(&mut self, whole: &[u8]) -> Done {
        let mut data = whole.to_vec();
        for at in 0..whole.len() {
            for bit in 0..8 {
                data[at] ^= 1 << bit;
                self.reader.read(Given::of(&data))?;
                data[at] ^= 1 << bit;
            }
        }
        Ok(())
    }

    /// Two features of one code, of every two lengths, with the other code at each place.
    fn twice(&mut self) -> Done {
        for (code, other) in [(TPER, KEY_PER_IO), (KEY_PER_IO, TPER)] {
            for first in LENGTHS {
                for second in LENGTHS {
                    let two = [first, second].map(|length| feature(&mut self.rng, code, length));
                    self.with_third(&two, other, KEY_PER_IO_LENGTH)?;
                }
            }
        }
        Ok(())
    }

    fn unknown(&mut self) -> Done {
        for code in UNKNOWN {
            for length in [0, 1, 0xFF] {
                let known = features(&mut self.rng);
                self.with_third(&known, code, length)?;
            }
        }
        Ok(())
    }

    /// Two features alone, and with a third at each place.
    fn with_third(&mut self, two: &[Vec<u8>; 2], code: u16, length: u8) -> Done {
        let third = feature(&mut self.rng, code, length);
        let head = header(&mut self.rng);
        self.reader.read(Given::of(&response(&head, two)))?;
        for place in 0..=two.len() {
            let mut three = two.to_vec();
            three.insert(place, third.clone());
            self.reader.read(Given::of(&response(&head, &three)))?;
        }
        Ok(())
    }

    /// Of a head behind no, one or two features 1 to 3 bytes come before the end; the others are in
    /// the data, behind it, or nowhere.
    fn cut_heads(&mut self) -> Done {
        for before in 0..=2 {
            for left in 1..HEAD {
                let known = features(&mut self.rng);
                let mut told = response(&header(&mut self.rng), &known[..before]);
                let end = told.len() + left;
                told.extend(feature(&mut self.rng, TPER, TPER_LENGTH));
                end_at(&mut told, end);
                let (data, behind) = told.split_at(end);
                self.reader.read(Given::of(&told))?;
                self.reader.read(Given { behind, ..Given::of(data) })?;
                self.reader.read(Given::of(data))?;
            }
        }
        Ok(())
    }
}

/// The response that a fresh drive answers to the line 0C, through the C interface.
fn asked() -> Result<Vec<u8>, Difference> {
    let (mut image, mut marks) = ([0; IMAGE], [0; STORE]);
    let mut out = [0; DISCOVERY_ROOM];
    proved::start(&mut image, &mut marks, &PROGRAM_KEK);
    let (_, written) = proved::line(&mut image, &mut marks, b"0C", &mut out);
    let answer = out.get(..written).unwrap_or_default();
    let digits = answer.strip_prefix(b"0000").and_then(|answer| answer.strip_suffix(b"\n"));
    digits.and_then(from_digits).ok_or_else(|| {
        let told = answer.escape_ascii();
        Difference(format!("the line 0C has no response: {written} bytes, \"{told}\""))
    })
}
