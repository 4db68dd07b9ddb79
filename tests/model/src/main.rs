//! Answers the session on standard input.

use std::io::{copy, sink, stdin, stdout, Read, Result, Write};

use model::numbers::{INPUT, OUTPUT, PROGRAM_KEK, STORE};
use model::{status, Drive};

fn main() -> Result<()> {
    let mut text = Vec::with_capacity(INPUT + 1);
    stdin().lock().take(INPUT as u64 + 1).read_to_end(&mut text)?;
    if text.len() > INPUT {
        copy(&mut stdin().lock(), &mut sink())?;
        return writeln!(stdout(), "{:04X}", status::OUTPUT);
    }
    let mut marks = [0; STORE];
    let mut out = [0; OUTPUT];
    let (_, mut drive) = Drive::start(&PROGRAM_KEK, &mut marks);
    let (number, _, written) = drive.session(&mut marks, &text, &mut out);
    if number != status::DONE {
        return writeln!(stdout(), "{number:04X}");
    }
    stdout().write_all(&out[..written])
}
