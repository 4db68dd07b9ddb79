//! Loads in KMIP form alone: half of the messages whole, half damaged.

use std::collections::BTreeMap;

use embed::Rng;
use model::lines::*;
use model::messages::*;
use model::numbers::{KEY, NAMESPACES, POOL, PROGRAM_KEK, ROOM, STORE};
use model::{kmip, status, Drive};

use crate::mix::counts;
use crate::race::Course;

const SEED: u64 = 5;
const TAGS_EACH: usize = POOL / NAMESPACES;

/// A course of so many lines with all tags managed: each whole message goes to the next empty slot;
/// when all are loaded, a power cycle empties them. And what is answered, told in a line.
pub fn messages(lines: usize) -> (Course, String) {
    let mut rng = Rng::new(SEED);
    let mut marks = vec![0; STORE];
    let mut drive = managed(&mut marks);
    let start = drive.clone();
    let (mut text, mut answers) = (Vec::new(), BTreeMap::new());
    let mut slot = 0;
    for _ in 0..lines {
        let line = if slot == POOL { power_cycle() } else { line(&mut rng, slot) };
        let (number, _) = drive.line(&mut marks, line.as_bytes(), &mut [0; ROOM]);
        slot = if slot == POOL { 0 } else { slot + usize::from(number == status::DONE) };
        *answers.entry(format!("{number:04X}")).or_default() += 1;
        text.extend(line.into_bytes());
        text.push(b'\n');
    }
    let told = format!("answers  {}", counts(&answers));
    (Course { text, lines, drive: start, marks: vec![0; STORE] }, told)
}

fn managed(marks: &mut [u8]) -> Drive {
    let (_, mut drive) = Drive::start(&PROGRAM_KEK, marks);
    for namespace in 1..=NAMESPACES as u8 {
        let line = manage(namespace, TAGS_EACH as u8);
        assert_eq!(drive.line(marks, line.as_bytes(), &mut [0; ROOM]).0, status::DONE);
    }
    drive
}

fn line(rng: &mut Rng, slot: usize) -> String {
    let (namespace, tag) = (1 + (slot / TAGS_EACH) as u8, (slot % TAGS_EACH) as u16);
    // KeyUIDs of 1 to 16 bytes, so messages of both sizes.
    let uid = hex(&[slot as u8; 16][..16 - slot % 16]);
    match rng.once_in(2) {
        true => damaged(rng, namespace, tag, &uid, slot as u8),
        false => message_load(namespace, tag, &uid, slot as u8),
    }
}

/// The line of a message that is damaged in one of five ways. Some are still taken.
pub fn damaged(rng: &mut Rng, namespace: u8, tag: u16, uid: &str, key: u8) -> String {
    let message = kmip::message(namespace, tag, &unhex(uid), &[key; KEY]);
    let at = rng.below(message.len());
    let damaged = match rng.below(5) {
        0 => with_byte(&message, at, message[at] ^ 1 << rng.below(8)),
        1 => message[..at].to_vec(),
        2 => with_byte(&message, rng.pick(&padding(&message)), 0x80),
        3 => kmip::message(namespace, tag + 1, &unhex(uid), &[key; KEY]),
        _ => changed(&message, rng.below(items(&message)), Change::Drop).expect("an item"),
    };
    message_frame(namespace, tag, &damaged)
}
