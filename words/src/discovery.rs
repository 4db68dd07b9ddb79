//! A discovery response in words: the few fields that a typist may need. docs/DISCOVERY.md has them all.

/// Where the Key Per I/O feature begins in the drive's own response, and how: its code, a version, its length.
const FEATURE: usize = 64;
const CODE: [u8; 2] = [0x03, 0x05];
const LENGTH: u8 = 0x2C;

pub fn told(response: &[u8]) -> String {
    let feature = response.get(FEATURE..).unwrap_or_default();
    match feature {
        [a, b, _, LENGTH, rest @ ..] if [*a, *b] == CODE && rest.len() >= LENGTH.into() => {
            format!("the drive told what it is: {}", fields(feature))
        }
        _ => "the drive told what it is".to_string(),
    }
}

fn fields(feature: &[u8]) -> String {
    let yes = |bit: bool| if bit { "yes" } else { "no" };
    format!(
        "{} numbers for all rooms, up to {} a room, KeyUIDs of up to {} bytes; \
         notices a wrong key: {}; takes KMIP messages: {}; takes wrapped keys: {}",
        number(&feature[36..40]),
        number(&feature[40..42]),
        number(&feature[17..19]),
        yes(feature[16] & 0x08 != 0),
        yes(feature[19] & 0x01 != 0),
        yes(feature[21] & 0x01 != 0),
    )
}

/// Numbers in a response have their highest byte first, unlike those in frames.
fn number(bytes: &[u8]) -> u32 {
    bytes.iter().fold(0, |number, &byte| number << 8 | u32::from(byte))
}
