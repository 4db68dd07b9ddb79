//! How often each number is the answer in the sessions from seeds, 07 01 by its reasons, and how often a discovery
//! response.

use std::collections::BTreeMap;

use model::numbers::DISCOVERY_ROOM;
use model::status::*;

/// Fewer of one than this, and the sessions say too little of it.
const LEAST: usize = 20;

const RESPONSES: &str = "responses";

/// 07 01 and its reason.
const FAULTS: [&str; 4] = ["070101", "070102", "070103", "070104"];

/// All else that the program can print but 00 00.
const REFUSALS: [u16; 23] = [
    OPCODE,
    FIELD,
    NAMESPACE,
    TAG,
    WRONG_KEY,
    BLOCK_RANGE,
    LOCK_FIXED,
    WRITE_LOCKED,
    KIND,
    LENGTH,
    KEY_UID_LENGTH,
    MANAGED,
    NOT_MANAGED,
    TAG_COUNT,
    POOL,
    OCCUPIED,
    EMPTY,
    OLD_KEY_UID,
    OTHER_KEY,
    OUTPUT,
    INTEGRITY,
    MESSAGE,
    MESSAGE_KEY_UID,
];

#[derive(Default)]
pub struct Tally(BTreeMap<String, usize>);

impl Tally {
    pub fn add(&mut self, printed: &[u8]) {
        for answer in String::from_utf8_lossy(printed).lines() {
            let name = match answer {
                _ if answer.len() + 1 == DISCOVERY_ROOM => RESPONSES,
                _ if answer.starts_with("0701") => &answer[..6],
                _ => &answer[..4],
            };
            *self.0.entry(name.to_string()).or_default() += 1;
        }
    }

    pub fn table(&self) -> String {
        let of = |(number, times): (&String, &usize)| format!("{number} {times}");
        self.0.iter().map(of).collect::<Vec<_>>().join(", ")
    }

    /// The answers that came too seldom.
    pub fn rare(&self) -> Vec<String> {
        let times = |number: &String| self.0.get(number).copied().unwrap_or(0);
        REFUSALS
            .map(|number| format!("{number:04X}"))
            .into_iter()
            .chain(FAULTS.map(str::to_string))
            .chain([RESPONSES.to_string()])
            .filter(|n| times(n) < LEAST)
            .collect()
    }
}
