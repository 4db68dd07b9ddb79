//! Sessions for the program, each with what it must print. In `tests/model`:
//!
//! - `cargo run --release --offline --bin sessions` writes `tests/sessions` anew: those that are kept as files.
//! - `.. --bin sessions -- FOLDER` writes all others to `FOLDER/in` and `FOLDER/out`: the rest of those with answers
//!   worked out by hand, which stand beside the lines, and those from seeds, which the model answers.
//! - `.. --bin sessions -- --broken RULE...` tells to how many of those from seeds the model gives other answers with
//!   that rule wrong, and fails if it is none.
//!
//! `cargo test` holds the model against the answers by hand, and the files against what is written here.

use std::path::{Path, PathBuf};
use std::process::ExitCode;
use std::{env, fs, io as disk};

#[path = "sessions/boot.rs"]
mod boot;
#[path = "sessions/broken.rs"]
mod broken;
#[path = "sessions/clear.rs"]
mod clear;
#[path = "sessions/dice.rs"]
mod dice;
#[path = "sessions/discovery.rs"]
mod discovery;
#[path = "sessions/faults.rs"]
mod faults;
#[path = "sessions/folder.rs"]
mod folder;
#[path = "sessions/forms.rs"]
mod forms;
#[path = "sessions/io.rs"]
mod io;
#[path = "sessions/kept.rs"]
mod kept;
#[path = "sessions/lengths.rs"]
mod lengths;
#[path = "sessions/load.rs"]
mod load;
#[path = "sessions/manage.rs"]
mod manage;
#[path = "sessions/marks.rs"]
mod marks;
#[path = "sessions/message.rs"]
mod message;
#[path = "sessions/message_items.rs"]
mod message_items;
#[path = "sessions/misopened.rs"]
mod misopened;
#[path = "sessions/misplaced.rs"]
mod misplaced;
#[path = "sessions/misread.rs"]
mod misread;
#[path = "sessions/order.rs"]
mod order;
#[path = "sessions/paper.rs"]
mod paper;
#[path = "sessions/replace.rs"]
mod replace;
#[path = "sessions/seeds.rs"]
mod seeds;
#[path = "sessions/spoilt.rs"]
mod spoilt;
#[path = "sessions/tally.rs"]
mod tally;
#[path = "sessions/walk.rs"]
mod walk;
#[path = "sessions/wrapped.rs"]
mod wrapped;
#[path = "sessions/wrapped_order.rs"]
mod wrapped_order;

use broken::Rule;
use folder::{printed_for, Folder};
use tally::Tally;

fn main() -> ExitCode {
    let words: Vec<String> = env::args().skip(1).collect();
    let words: Vec<&str> = words.iter().map(String::as_str).collect();
    let done = match words[..] {
        [] => write_files(&by_hand()),
        ["--broken", ref rules @ ..] => tell_broken(rules),
        [folder] => write_others(Path::new(folder)),
        _ => Err(disk::Error::other("usage: sessions [FOLDER | --broken RULE...]")),
    };
    match done {
        Ok(()) => ExitCode::SUCCESS,
        Err(error) => {
            eprintln!("sessions: {error}");
            ExitCode::FAILURE
        }
    }
}

fn by_hand() -> Folder {
    let mut folder = Folder::default();
    paper::add(&mut folder);
    forms::add(&mut folder);
    faults::add(&mut folder);
    lengths::add(&mut folder);
    manage::add(&mut folder);
    load::add(&mut folder);
    replace::add(&mut folder);
    clear::add(&mut folder);
    io::add(&mut folder);
    marks::add(&mut folder);
    boot::add(&mut folder);
    order::add(&mut folder);
    discovery::add(&mut folder);
    message::add(&mut folder);
    message_items::add(&mut folder);
    wrapped::add(&mut folder);
    wrapped_order::add(&mut folder);
    folder
}

fn files_folder() -> PathBuf {
    Path::new(env!("CARGO_MANIFEST_DIR")).join("../sessions")
}

/// Writes the files anew, whatever was there; nothing if the model answers otherwise than by hand.
fn write_files(folder: &Folder) -> disk::Result<()> {
    let differences = folder.differences();
    if !differences.is_empty() {
        return Err(disk::Error::other(format!("nothing written:\n{}", differences.join("\n"))));
    }
    let files = folder.files();
    if files_folder().exists() {
        fs::remove_dir_all(files_folder())?;
    }
    for (path, bytes) in &files {
        let path = files_folder().join(path);
        fs::create_dir_all(path.parent().expect("a family's folder"))?;
        fs::write(path, bytes)?;
    }
    println!("sessions: {} kept as files", files.len() / 2);
    Ok(())
}

fn write_others(folder: &Path) -> disk::Result<()> {
    fs::create_dir_all(folder.join("in"))?;
    fs::create_dir_all(folder.join("out"))?;
    let others = by_hand().write_others(folder)?;
    let mut tally = Tally::default();
    for seed in seeds::SEEDS {
        let (name, text) = (format!("seed-{seed:04}"), seeds::session(seed));
        let printed = printed_for(&text);
        tally.add(&printed);
        fs::write(folder.join("in").join(&name), text)?;
        fs::write(folder.join("out").join(&name), printed)?;
    }
    println!(
        "seeds: {others} sessions answered by hand, {} from seeds, with these answers:",
        seeds::SEEDS.end()
    );
    println!("seeds: {}", tally.table());
    match tally.rare() {
        rare if rare.is_empty() => Ok(()),
        rare => Err(disk::Error::other(format!("too seldom an answer: {}", rare.join(", ")))),
    }
}

fn tell_broken(names: &[&str]) -> disk::Result<()> {
    let sessions: Vec<_> = seeds::SEEDS.map(seeds::session).collect();
    let printed: Vec<_> = sessions.iter().map(|text| printed_for(text)).collect();
    for name in names {
        let rule = Rule::named(name)
            .ok_or_else(|| disk::Error::other(format!("there is no rule {name}")))?;
        let differs = |(text, right): &(&Vec<u8>, &Vec<u8>)| rule.printed_for(text) != **right;
        let times = sessions.iter().zip(&printed).filter(differs).count();
        if times == 0 {
            return Err(disk::Error::other(format!("a wrong rule ({name}) was not seen")));
        }
        println!("{name} in {times}");
    }
    Ok(())
}

#[cfg(test)]
mod tests {
    use super::*;

    #[test]
    fn the_model_answers_as_by_hand() {
        let differences = by_hand().differences();
        assert!(differences.is_empty(), "{}", differences.join("\n"));
    }

    #[test]
    fn the_files_are_those_written_here() {
        let folder = by_hand();
        let mut found = 0;
        for family in fs::read_dir(files_folder()).unwrap() {
            found += fs::read_dir(family.unwrap().path()).unwrap().count();
        }
        let files = folder.files();
        assert_eq!(found, files.len(), "files in tests/sessions");
        for (path, bytes) in files {
            assert!(fs::read(files_folder().join(&path)).unwrap() == bytes, "{}", path.display());
        }
    }
}
