//! `include/tuffaleen.h` from Rust: what the header asks of a caller, slices and arrays have.

use model::numbers::{KEK, WRAPPED};

/// What no count can be, so that one that a call leaves unset is seen.
const UNSET: usize = usize::MAX;

extern "C" {
    fn tuffaleen_start(
        image: *mut u8,
        image_len: usize,
        marks: *mut u8,
        marks_len: usize,
        kek: *const u8,
    ) -> u16;

    fn tuffaleen_line(
        image: *mut u8,
        image_len: usize,
        marks: *mut u8,
        marks_len: usize,
        line: *const u8,
        line_len: usize,
        out: *mut u8,
        out_len: usize,
        written: *mut usize,
    ) -> u16;

    fn tuffaleen_session(
        image: *mut u8,
        image_len: usize,
        marks: *mut u8,
        marks_len: usize,
        text: *const u8,
        text_len: usize,
        out: *mut u8,
        out_len: usize,
        lines: *mut usize,
        written: *mut usize,
    ) -> u16;

    fn tuffaleen_discovery(
        data: *const u8,
        data_len: usize,
        fields: *mut u32,
        fields_len: usize,
    ) -> u16;

    fn tuffaleen_message(
        ns: u8,
        tag: u16,
        key_uid: *const u8,
        key_uid_len: usize,
        key: *const u8,
        key_len: usize,
        out: *mut u8,
        out_len: usize,
        written: *mut usize,
    ) -> u16;

    fn tuffaleen_wrap(kek: *const u8, bytes: *mut u8, words: *mut u32);

    fn tuffaleen_unwrap(kek: *const u8, bytes: *mut u8, words: *mut u32) -> u16;
}

/// The number.
pub fn start(image: &mut [u8], marks: &mut [u8], kek: &[u8; KEK]) -> u16 {
    // SAFETY: the slices are valid for their lengths, the array for 32 bytes, and none overlap.
    unsafe {
        tuffaleen_start(
            image.as_mut_ptr(),
            image.len(),
            marks.as_mut_ptr(),
            marks.len(),
            kek.as_ptr(),
        )
    }
}

/// The number and the bytes written.
pub fn line(image: &mut [u8], marks: &mut [u8], line: &[u8], out: &mut [u8]) -> (u16, usize) {
    let mut written = UNSET;
    // SAFETY: the slices are valid for their lengths and do not overlap.
    let number = unsafe {
        tuffaleen_line(
            image.as_mut_ptr(),
            image.len(),
            marks.as_mut_ptr(),
            marks.len(),
            line.as_ptr(),
            line.len(),
            out.as_mut_ptr(),
            out.len(),
            &mut written,
        )
    };
    (number, written)
}

/// The number, the lines answered and the bytes written.
pub fn session(
    image: &mut [u8],
    marks: &mut [u8],
    text: &[u8],
    out: &mut [u8],
) -> (u16, usize, usize) {
    let (mut lines, mut written) = (UNSET, UNSET);
    // SAFETY: the slices are valid for their lengths and do not overlap.
    let number = unsafe {
        tuffaleen_session(
            image.as_mut_ptr(),
            image.len(),
            marks.as_mut_ptr(),
            marks.len(),
            text.as_ptr(),
            text.len(),
            out.as_mut_ptr(),
            out.len(),
            &mut lines,
            &mut written,
        )
    };
    (number, lines, written)
}

/// The number.
pub fn discovery(data: &[u8], fields: &mut [u32]) -> u16 {
    // SAFETY: the slices are valid for their lengths and do not overlap.
    unsafe { tuffaleen_discovery(data.as_ptr(), data.len(), fields.as_mut_ptr(), fields.len()) }
}

/// The number and the bytes written.
pub fn message(ns: u8, tag: u16, key_uid: &[u8], key: &[u8], out: &mut [u8]) -> (u16, usize) {
    let mut written = UNSET;
    // SAFETY: the slices are valid for their lengths and do not overlap.
    let number = unsafe {
        tuffaleen_message(
            ns,
            tag,
            key_uid.as_ptr(),
            key_uid.len(),
            key.as_ptr(),
            key.len(),
            out.as_mut_ptr(),
            out.len(),
            &mut written,
        )
    };
    (number, written)
}

/// What round keys go through; whatever it held, nothing may be left of them.
const WORDS: [u32; 60] = [0x5A5A_5A5A; 60];

pub fn wrap(kek: &[u8; KEK], bytes: &mut [u8; WRAPPED]) {
    let mut words = WORDS;
    // SAFETY: the arrays have 32 and 40 bytes and 60 words and do not overlap.
    unsafe { tuffaleen_wrap(kek.as_ptr(), bytes.as_mut_ptr(), words.as_mut_ptr()) }
    assert!(words == [0; 60], "round keys are left");
}

/// The number.
pub fn unwrap(kek: &[u8; KEK], bytes: &mut [u8; WRAPPED]) -> u16 {
    let mut words = WORDS;
    // SAFETY: the arrays have 32 and 40 bytes and 60 words and do not overlap.
    let number = unsafe { tuffaleen_unwrap(kek.as_ptr(), bytes.as_mut_ptr(), words.as_mut_ptr()) };
    assert!(words == [0; 60], "round keys are left");
    number
}
