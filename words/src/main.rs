//! words SESSION ANSWERS: the session in plain words. Both are files; `./run --words` makes the answers.

use std::env::args_os;
use std::fs::read;
use std::io::{stdout, Write};
use std::path::Path;
use std::process::ExitCode;

const UNPAIRED: u8 = 1;
const USAGE: u8 = 2;

fn main() -> ExitCode {
    match run() {
        Ok(()) => ExitCode::SUCCESS,
        Err((status, why)) => {
            eprintln!("words: {why}");
            ExitCode::from(status)
        }
    }
}

fn run() -> Result<(), (u8, String)> {
    let files: Vec<_> = args_os().skip(1).collect();
    let [session, answers] = &files[..] else {
        return Err((USAGE, "usage: words SESSION ANSWERS".to_string()));
    };
    let session = bytes(session.as_ref())?;
    let answers = bytes(answers.as_ref())?;
    let page = words::page(&session, &answers).map_err(|why| (UNPAIRED, why))?;
    stdout().write_all(page.as_bytes()).map_err(|why| (UNPAIRED, format!("a write failed: {why}")))
}

fn bytes(file: &Path) -> Result<Vec<u8>, (u8, String)> {
    read(file).map_err(|why| (USAGE, format!("{} cannot be read: {why}", file.display())))
}
