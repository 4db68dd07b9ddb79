//! All buffers of a call in one allocation, with guard bytes before, between and behind them.

use std::ops::Range;

/// Odd, so that the buffers begin at all kinds of addresses.
const GUARD: usize = 61;

const PARTS: [&str; 4] = ["image", "marks", "text", "output"];

/// How long each buffer of a call is, or how much room an arena has for it.
#[derive(Clone, Copy)]
pub struct Lengths {
    pub image: usize,
    pub marks: usize,
    pub text: usize,
    pub out: usize,
}

/// The buffers of one call. What an arena has outside them must not change.
pub struct Lent<'a> {
    pub image: &'a mut [u8],
    pub marks: &'a mut [u8],
    pub text: &'a mut [u8],
    pub out: &'a mut [u8],
}

#[derive(PartialEq, Eq)]
pub struct Arena {
    bytes: Vec<u8>,
    starts: [usize; 4],
}

impl Lengths {
    fn each(&self) -> [usize; 4] {
        [self.image, self.marks, self.text, self.out]
    }
}

impl Arena {
    pub fn new(rooms: Lengths) -> Arena {
        let mut end = 0;
        let starts = rooms.each().map(|room| {
            let start = end + GUARD;
            end = start + room;
            start
        });
        let bytes = (0..end + GUARD).map(|at| (at % 251) as u8).collect();
        Arena { bytes, starts }
    }

    pub fn lend(&mut self, lengths: &Lengths) -> Lent<'_> {
        let ranges = self.ranges(lengths);
        let [image, marks, text, out] = self.bytes.get_disjoint_mut(ranges).expect("room enough");
        Lent { image, marks, text, out }
    }

    pub fn image(&self, length: usize) -> &[u8] {
        &self.bytes[self.starts[0]..][..length]
    }

    pub fn text(&self, length: usize) -> &[u8] {
        &self.bytes[self.starts[2]..][..length]
    }

    pub fn out(&self, length: usize) -> &[u8] {
        &self.bytes[self.starts[3]..][..length]
    }

    /// The first byte in which two arenas of the same rooms differ: where it lies, and both bytes.
    pub fn difference(&self, other: &Arena, lengths: &Lengths) -> Option<(String, u8, u8)> {
        let at = self.bytes.iter().zip(&other.bytes).position(|(one, two)| one != two)?;
        Some((self.place(at, lengths), self.bytes[at], other.bytes[at]))
    }

    fn place(&self, at: usize, lengths: &Lengths) -> String {
        let mut parts = PARTS.iter().zip(self.ranges(lengths)).rev();
        match parts.find(|(_, range)| range.start <= at) {
            Some((part, range)) if range.contains(&at) => {
                format!("byte {} of the {part}", at - range.start)
            }
            Some((part, range)) => format!("byte {} behind the {part}", at - range.end),
            None => format!("byte {at} before the {}", PARTS[0]),
        }
    }

    fn ranges(&self, lengths: &Lengths) -> [Range<usize>; 4] {
        let lengths = lengths.each();
        std::array::from_fn(|part| self.starts[part]..self.starts[part] + lengths[part])
    }
}
