//! The sessions with answers worked out by hand, as they are gathered, held against the model and written.

use std::collections::{BTreeMap, BTreeSet};
use std::path::{Path, PathBuf};
use std::{fs, io};

use model::numbers::{INPUT, OUTPUT, PROGRAM_KEK, STORE};
use model::{status, Drive};

use crate::kept::{family, KEPT};

/// Lines, each with its answer beside it.
pub type Lines = Vec<(String, &'static str)>;

struct Session {
    name: String,
    input: Vec<u8>,
    output: Vec<u8>,
}

#[derive(Default)]
pub struct Folder {
    sessions: Vec<Session>,
    names: BTreeSet<String>,
}

impl Folder {
    /// A session of lines with the answers worked out beside them.
    pub fn add<A: AsRef<str>>(
        &mut self,
        name: impl Into<String>,
        lines: impl IntoIterator<Item = (String, A)>,
    ) {
        let (mut input, mut output) = (String::new(), String::new());
        for (line, answer) in lines {
            input += &(line + "\n");
            output += answer.as_ref();
            output += "\n";
        }
        let name = name.into();
        assert!(input.len() <= INPUT, "{name} has {} bytes", input.len());
        self.raw(name, input, output);
    }

    /// Sessions `NAME-1`, `NAME-2` and so on: each begins with the setup, has as many of the steps as fit and ends
    /// with the proof.
    pub fn add_in_parts(&mut self, name: &str, setup: Lines, steps: Vec<Lines>, proof: Lines) {
        let bytes = |lines: &Lines| lines.iter().map(|(line, _)| line.len() + 1).sum::<usize>();
        let most = INPUT - bytes(&setup) - bytes(&proof);
        let mut parts: Vec<Lines> = Vec::new();
        for step in steps {
            match parts.last_mut() {
                Some(part) if bytes(part) + bytes(&step) <= most => part.extend(step),
                _ => parts.push(step),
            }
        }
        for (part, lines) in parts.into_iter().enumerate() {
            let lines = [setup.clone(), lines, proof.clone()].concat();
            self.add(format!("{name}-{}", part + 1), lines);
        }
    }

    /// A session given as bytes, with its whole output.
    pub fn raw(
        &mut self,
        name: impl Into<String>,
        input: impl Into<Vec<u8>>,
        output: impl Into<Vec<u8>>,
    ) {
        let (name, input, output) = (name.into(), input.into(), output.into());
        assert!(self.names.insert(name.clone()), "two sessions are called {name}");
        self.sessions.push(Session { name, input, output });
    }

    /// Where the model answers otherwise than by hand, and names in `KEPT` that no session has.
    pub fn differences(&self) -> Vec<String> {
        let kept = KEPT.iter().flat_map(|(_, names)| names.iter());
        let unknown = kept.filter(|&&name| !self.names.contains(name));
        let unknown = unknown.map(|name| format!("there is no session {name} to keep"));
        self.sessions.iter().filter_map(Session::difference).chain(unknown).collect()
    }

    /// The files of `tests/sessions`: a path below it, and what the file holds.
    pub fn files(&self) -> BTreeMap<PathBuf, &[u8]> {
        let mut files = BTreeMap::new();
        for session in &self.sessions {
            if let Some(family) = family(&session.name) {
                let path = |kind| Path::new(family).join(format!("{}.{kind}", session.name));
                files.insert(path("in"), session.input.as_slice());
                files.insert(path("out"), session.output.as_slice());
            }
        }
        files
    }

    /// Writes the sessions that are no files: `in/NAME` and `out/NAME`.
    pub fn write_others(&self, folder: &Path) -> io::Result<usize> {
        let others = || self.sessions.iter().filter(|session| family(&session.name).is_none());
        for session in others() {
            fs::write(folder.join("in").join(&session.name), &session.input)?;
            fs::write(folder.join("out").join(&session.name), &session.output)?;
        }
        Ok(others().count())
    }
}

impl Session {
    /// The first line at which the model prints something else.
    fn difference(&self) -> Option<String> {
        let printed = printed_for(&self.input);
        if printed == self.output {
            return None;
        }
        let (expected, printed) = (self.output.as_slice(), printed.as_slice());
        let [expected, printed] = [expected, printed].map(|text| text.split(|&byte| byte == b'\n'));
        let same = expected.clone().zip(printed.clone()).take_while(|(e, p)| e == p).count();
        let [expected, printed] = [expected, printed]
            .map(|mut lines| String::from_utf8_lossy(lines.nth(same).unwrap_or(b"")).into_owned());
        let line = self.input.split(|&byte| byte == b'\n').nth(same).unwrap_or(b"");
        let line = String::from_utf8_lossy(line);
        let (name, number) = (&self.name, same + 1);
        Some(format!("{name}, line {number}: {line}\n  by hand {expected}, model {printed}"))
    }
}

/// What the model prints.
pub fn printed_for(text: &[u8]) -> Vec<u8> {
    if text.len() > INPUT {
        return b"070F\n".to_vec();
    }
    let (mut marks, mut out) = ([0; STORE], vec![0; OUTPUT]);
    let (_, mut drive) = Drive::start(&PROGRAM_KEK, &mut marks);
    let (number, _, written) = drive.session(&mut marks, text, &mut out);
    if number != status::DONE {
        return format!("{number:04X}\n").into_bytes();
    }
    out.truncate(written);
    out
}
