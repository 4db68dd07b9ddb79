//! One line and whole sessions: what is judged before any line, and the answers' digits.

use crate::discovery;
use crate::drive::Drive;
use crate::frame::{decode, parse, Frame, DIGITS};
use crate::numbers::{DISCOVERY_ROOM, FRAME, RESPONSE, ROOM, STORE};
use crate::status;

/// What an accepted frame answers behind 00 00.
enum Data {
    Nothing,
    Locks(u32),
    Response([u8; RESPONSE]),
}

/// The output that a line asks for, by its digits and not by its answer.
pub fn room(line: &[u8]) -> usize {
    match line {
        b"0C" => DISCOVERY_ROOM,
        _ => ROOM,
    }
}

/// The output that a session asks for before its first line is answered.
pub fn session_room(text: &[u8]) -> usize {
    lines(text).map(room).sum()
}

/// The lines of a text, without their line feeds.
fn lines(text: &[u8]) -> impl Iterator<Item = &[u8]> {
    text.split_inclusive(|&byte| byte == b'\n').map(|line| line.strip_suffix(b"\n").unwrap_or(line))
}

impl Drive {
    /// Answers one line: the answer's number and the bytes written, 0 when the call was refused.
    pub fn line(&mut self, marks: &mut [u8], line: &[u8], out: &mut [u8]) -> (u16, usize) {
        match self.admit(marks, room(line), out) {
            Ok(marks) => self.answer(marks, line, &mut [0; FRAME], out),
            Err(number) => (number, 0),
        }
    }

    /// Answers every line of a text: 00 00 or what refused it, lines answered, bytes written.
    pub fn session(
        &mut self,
        marks: &mut [u8],
        text: &[u8],
        out: &mut [u8],
    ) -> (u16, usize, usize) {
        let marks = match self.admit(marks, session_room(text), out) {
            Ok(marks) => marks,
            Err(number) => return (number, 0, 0),
        };
        let mut frame = [0; FRAME];
        let (mut answered, mut written) = (0, 0);
        for line in lines(text) {
            written += self.answer(marks, line, &mut frame, &mut out[written..]).1;
            answered += 1;
        }
        (status::DONE, answered, written)
    }

    fn admit<'m>(
        &self,
        marks: &'m mut [u8],
        room: usize,
        out: &[u8],
    ) -> Result<&'m mut [u8; STORE], u16> {
        if out.len() < room {
            return Err(status::OUTPUT);
        }
        let marks = marks.try_into().map_err(|_| status::STORE)?;
        if !self.sound() {
            return Err(status::UNSOUND);
        }
        Ok(marks)
    }

    /// Whatever the buffer holds; the frame's bytes go to its front.
    fn answer(
        &mut self,
        marks: &mut [u8; STORE],
        line: &[u8],
        buffer: &mut [u8; FRAME],
        out: &mut [u8],
    ) -> (u16, usize) {
        let bytes = match decode(line, buffer) {
            Ok(bytes) => bytes,
            Err(fault) => return (status::LINE, write_line(out, status::LINE, fault.data())),
        };
        match parse(bytes).and_then(|frame| self.obey(marks, frame)) {
            Ok(Data::Nothing) => (status::DONE, write_line(out, status::DONE, [])),
            Ok(Data::Locks(dword)) => {
                (status::DONE, write_line(out, status::DONE, dword.to_le_bytes()))
            }
            Ok(Data::Response(bytes)) => (status::DONE, write_line(out, status::DONE, bytes)),
            Err(number) => (number, write_line(out, number, [])),
        }
    }

    fn obey(&mut self, marks: &mut [u8; STORE], frame: Frame) -> Result<Data, u16> {
        match frame {
            Frame::Manage(namespace, count) => self.manage(namespace, count)?,
            Frame::Release(namespace) => self.release(marks, namespace)?,
            Frame::Load(namespace, tag, material) => self.load(namespace, tag, material)?,
            Frame::WrappedLoad(namespace, tag, uid, wrapped) => {
                self.wrapped_load(namespace, tag, uid, wrapped)?
            }
            Frame::Replace(namespace, tag, old, material) => {
                self.replace(namespace, tag, old, material)?
            }
            Frame::ClearOne(namespace, tag) => self.clear_one(namespace, tag)?,
            Frame::ClearAll(namespace) => self.clear_all(namespace)?,
            Frame::Io(command) => self.io(marks, command)?,
            Frame::SetFeatures(dword) => self.set_features(dword)?,
            Frame::GetFeatures => return Ok(Data::Locks(self.get_features())),
            Frame::BootWrite(partition) => self.boot_write(partition)?,
            Frame::Reset(level) => self.reset(level)?,
            Frame::Discovery => return Ok(Data::Response(discovery::write(&discovery::own()))),
        }
        Ok(Data::Nothing)
    }
}

/// Writes the number and the data as digits with a line feed; returns how much that was.
fn write_line<const N: usize>(out: &mut [u8], number: u16, data: [u8; N]) -> usize {
    let (head, rest) = out.split_at_mut(4);
    let (digits, rest) = rest.split_at_mut(2 * N);
    write_digits(head, number.to_be_bytes());
    write_digits(digits, data);
    rest[0] = b'\n';
    4 + 2 * N + 1
}

fn write_digits<const N: usize>(digits: &mut [u8], bytes: [u8; N]) {
    for (pair, byte) in digits.chunks_exact_mut(2).zip(bytes) {
        pair[0] = DIGITS[usize::from(byte >> 4)];
        pair[1] = DIGITS[usize::from(byte & 0x0F)];
    }
}
