//! Keys wrapped and opened by themselves, without a drive.

use embed::{proved, Rng};
use model::numbers::{PROGRAM_KEK, WRAPPED};
use model::{status, wrap};

use crate::race::{keys, Times};

const SEED: u64 = 7;
const KEYS: usize = 5_000;

type Bytes = [u8; WRAPPED];

/// Random bytes, of which the last 32 are a key.
fn random() -> Vec<Bytes> {
    let mut rng = Rng::new(SEED);
    let mut keys = vec![[0; WRAPPED]; KEYS];
    keys.iter_mut().for_each(|key| rng.fill(key));
    keys
}

pub fn wraps() -> Times {
    keys(&random(), |bytes| proved::wrap(&PROGRAM_KEK, bytes), wrap_by_model)
}

pub fn unwraps() -> Times {
    let mut wrapped = random();
    wrapped.iter_mut().for_each(wrap_by_model);
    opened(&wrapped, status::DONE)
}

/// Bytes that are no wrapped key.
pub fn refused() -> Times {
    opened(&random(), status::INTEGRITY)
}

fn opened(wrapped: &[Bytes], number: u16) -> Times {
    let by_proved = |bytes: &mut Bytes| assert_eq!(proved::unwrap(&PROGRAM_KEK, bytes), number);
    keys(wrapped, by_proved, unwrap_by_model)
}

/// In place, as the C interface has it.
fn wrap_by_model(bytes: &mut Bytes) {
    *bytes = wrap::wrap(&PROGRAM_KEK, bytes.last_chunk().expect("a key"));
}

fn unwrap_by_model(bytes: &mut Bytes) {
    match wrap::unwrap(&PROGRAM_KEK, bytes) {
        Some(key) => {
            let (value, rest) = bytes.split_at_mut(WRAPPED - key.len());
            value.copy_from_slice(&wrap::INTEGRITY.to_be_bytes());
            rest.copy_from_slice(&key);
        }
        None => bytes.fill(0),
    }
}
