//! Lines that are no frame line, from end to end: a bad digit at each place, every byte at some
//! places, two bad digits, in lines that are even, odd or too long.

use model::{room, session_room};

use crate::arena::Lengths;
use crate::oracle::Function;
use crate::sweeps::{say, Done, Sweeps};

/// Around what a byte holds of a place, around the longest frame without a message, and up to past
/// the longest line.
const LENGTHS: [usize; 22] = [
    1, 2, 3, 4, 63, 64, 139, 140, 141, 255, 256, 257, 258, 511, 512, 513, 1022, 1023, 1024, 1025,
    1026, 1027,
];
/// Those that are gone over with every byte, and with two bad digits.
const EVERY_BYTE: [usize; 11] = [1, 2, 3, 64, 129, 257, 1023, 1024, 1025, 1026, 1027];
const TWO_BAD: [usize; 4] = [2, 3, 64, 65];

/// The letter behind the last digit, a small one, what ends lines elsewhere, and no ASCII.
const BAD: [u8; 4] = [b'G', b'a', b'\r', 0xFF];
const FILLINGS: [u8; 2] = [b'0', b'F'];

impl Sweeps {
    pub fn faults(&mut self) -> Done {
        self.bad_digit_at_each_place()?;
        self.every_byte_at_some_places()?;
        self.two_bad_digits()?;
        self.none_but_bad_digits()
    }

    /// By itself, and as the line of a session.
    fn bad_digit_at_each_place(&mut self) -> Done {
        for length in LENGTHS {
            for place in 0..length {
                let mut line = vec![FILLINGS[place % 2]; length];
                line[place] = BAD[place / 2 % 4];
                self.bad(&line)?;
                line.push(b'\n');
                self.bad_text(&line)?;
            }
        }
        Ok(())
    }

    /// At the ends, in the middle, and beside these. Of some bytes a line is made that is one.
    fn every_byte_at_some_places(&mut self) -> Done {
        for length in EVERY_BYTE {
            let middle = length / 2;
            let mut places = vec![0, 1, middle, middle + 1, length.saturating_sub(2), length - 1];
            places.retain(|&place| place < length);
            places.sort();
            places.dedup();
            for place in places {
                self.every_byte(length, place)?;
            }
        }
        Ok(())
    }

    fn every_byte(&mut self, length: usize, place: usize) -> Done {
        for byte in 0..=255 {
            let mut line = vec![b'F'; length];
            line[place] = byte;
            self.bad(&line)?;
        }
        Ok(())
    }

    fn two_bad_digits(&mut self) -> Done {
        for length in TWO_BAD {
            for one in 0..length {
                for two in one + 1..length {
                    let mut line = vec![b'0'; length];
                    (line[one], line[two]) = (BAD[two % 4], BAD[one % 4]);
                    self.bad(&line)?;
                }
            }
        }
        Ok(())
    }

    fn none_but_bad_digits(&mut self) -> Done {
        LENGTHS.into_iter().chain([0]).try_for_each(|length| {
            BAD.into_iter().try_for_each(|byte| self.bad(&vec![byte; length]))
        })
    }

    fn bad(&mut self, line: &[u8]) -> Done {
        self.pair.restore(&self.used);
        say(&mut self.pair, line, room(line))
    }

    fn bad_text(&mut self, text: &[u8]) -> Done {
        self.pair.restore(&self.used);
        self.pair.say(text);
        let lengths = Lengths::right(text.len(), session_room(text));
        self.pair.call(Function::Session, lengths).map(|_| ())
    }
}
