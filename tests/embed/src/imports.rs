//! Lines of kind 0D from end to end: whole messages to every kind of place, and each message changed
//! in each way that `messages` and `profile` know.

use model::kmip;
use model::messages::all_changed;
use model::numbers::{FRAME, KEY_UID};

use crate::hostile::LONGEST;
use crate::messages::*;
use crate::office::{Done, Load, Office, KEY_BYTES, TAGS_EACH, UID};
use crate::profile::*;

/// Of namespaces and of tags those there are, those there are not, and the ends.
pub const NAMESPACES: [u8; 10] = [0, 1, 2, 3, 4, 5, 127, 128, 254, 255];
pub const TAGS: [u16; 14] =
    [0, 1, 2, 62, 63, 64, 127, 128, 255, 256, 0x3F00, 0x7FFF, 0x8000, 0xFFFF];

/// Empty slots, and the lengths of the KeyUIDs that go there.
pub const EMPTY: [(u8, u16, usize); 4] =
    [(1, 0, 1), (2, 1, 8), (3, 62, 9), (4, TAGS_EACH as u16 - 1, KEY_UID)];

impl Office {
    pub fn imports(&mut self) -> Done {
        self.places()?;
        self.heads()?;
        for (namespace, tag, length) in EMPTY {
            let load = Load { namespace, tag, uid: &UID[..length], key: &KEY_BYTES };
            let message = load.message();
            let line = load.by_message(&message);
            self.is_taken(&line, &load)?;
            self.cuts(&line)?;
            for changed in changed(&message, namespace, tag) {
                self.send(namespace, tag, &changed)?;
            }
        }
        self.changed_twice()
    }

    /// Two items changed, or one twice.
    fn changed_twice(&mut self) -> Done {
        let (namespace, tag, length) = EMPTY[0];
        let message = kmip::message(namespace, tag, &UID[..length], &KEY_BYTES);
        for (_, _, once) in all_changed(&message) {
            for (_, _, twice) in all_changed(&once).filter(|(_, _, twice)| fits(twice)) {
                self.send(namespace, tag, &twice)?;
            }
        }
        Ok(())
    }

    /// KeyUIDs of each length at places of all kinds; those of a wrong length have no load.
    fn places(&mut self) -> Done {
        for (namespace, tag) in NAMESPACES.into_iter().flat_map(|one| TAGS.map(|two| (one, two))) {
            for uid in (0..=UID.len()).map(|length| &UID[..length]) {
                let load = Load { namespace, tag, uid, key: &KEY_BYTES };
                let line = load.by_message(&load.message());
                match uid.len() {
                    1..=KEY_UID => self.does_as_load(&line, &load)?,
                    _ => self.send_cut(&line, line.len())?,
                };
            }
        }
        Ok(())
    }

    /// One message in frames for other places.
    fn heads(&mut self) -> Done {
        for (namespace, tag, length) in EMPTY {
            let message = kmip::message(namespace, tag, &UID[..length], &KEY_BYTES);
            for (other, tag) in (0..=255).flat_map(|other| TAGS.map(|tag| (other, tag))) {
                self.send(other, tag, &message)?;
            }
            for byte in 0..=0xFF {
                self.send(namespace, byte, &message)?;
                self.send(namespace, byte << 8 | tag, &message)?;
            }
        }
        Ok(())
    }

    /// Cut at each digit, and with digits behind it up to past the longest line.
    pub fn cuts(&mut self, line: &str) -> Done {
        for digit in ["0", "4", "F"] {
            let longest = line.to_string() + &digit.repeat(2 * FRAME + 8 - line.len());
            for length in 0..=longest.len() {
                self.send_cut(&longest, length)?;
            }
        }
        Ok(())
    }
}

fn changed(message: &[u8], namespace: u8, tag: u16) -> impl Iterator<Item = Vec<u8>> {
    let of_items = [items_changed(message), values_changed(message), decoys(message)];
    let of_bytes = [bytes_changed(message), lengths_changed(message)];
    let of_sizes = [fillings(message), crowds(message), materials(namespace, tag)];
    let of_profile =
        [orders(message), attribute_lists(message, namespace, tag), cipher_places(message)];
    let all = of_items.into_iter().chain(of_bytes).chain(of_sizes).chain(of_profile);
    all.flatten().filter(|changed| fits(changed))
}

/// Whether a line may be as long; all that is left out is far too long for the drive.
fn fits(message: &[u8]) -> bool {
    2 * (FRAME_HEAD + message.len()) <= LONGEST
}
