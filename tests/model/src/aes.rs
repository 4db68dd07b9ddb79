//! AES-256 as FIPS 197 has it, step by step. Beside the two boxes stand tables of products, so that a
//! column is mixed with one look-up for each of its bytes.
//!
//! A block is a number of 128 bits, its first byte the highest, and the state its four columns.

const KEY: usize = 32;
const ROUNDS: usize = 14;

type State = [u32; 4];
/// The words of the key schedule, four for each round and four before the first.
pub type RoundKeys = [State; ROUNDS + 1];

pub static SUBSTITUTION: [u8; 256] = [
    0x63, 0x7C, 0x77, 0x7B, 0xF2, 0x6B, 0x6F, 0xC5, 0x30, 0x01, 0x67, 0x2B, 0xFE, 0xD7, 0xAB, 0x76,
    0xCA, 0x82, 0xC9, 0x7D, 0xFA, 0x59, 0x47, 0xF0, 0xAD, 0xD4, 0xA2, 0xAF, 0x9C, 0xA4, 0x72, 0xC0,
    0xB7, 0xFD, 0x93, 0x26, 0x36, 0x3F, 0xF7, 0xCC, 0x34, 0xA5, 0xE5, 0xF1, 0x71, 0xD8, 0x31, 0x15,
    0x04, 0xC7, 0x23, 0xC3, 0x18, 0x96, 0x05, 0x9A, 0x07, 0x12, 0x80, 0xE2, 0xEB, 0x27, 0xB2, 0x75,
    0x09, 0x83, 0x2C, 0x1A, 0x1B, 0x6E, 0x5A, 0xA0, 0x52, 0x3B, 0xD6, 0xB3, 0x29, 0xE3, 0x2F, 0x84,
    0x53, 0xD1, 0x00, 0xED, 0x20, 0xFC, 0xB1, 0x5B, 0x6A, 0xCB, 0xBE, 0x39, 0x4A, 0x4C, 0x58, 0xCF,
    0xD0, 0xEF, 0xAA, 0xFB, 0x43, 0x4D, 0x33, 0x85, 0x45, 0xF9, 0x02, 0x7F, 0x50, 0x3C, 0x9F, 0xA8,
    0x51, 0xA3, 0x40, 0x8F, 0x92, 0x9D, 0x38, 0xF5, 0xBC, 0xB6, 0xDA, 0x21, 0x10, 0xFF, 0xF3, 0xD2,
    0xCD, 0x0C, 0x13, 0xEC, 0x5F, 0x97, 0x44, 0x17, 0xC4, 0xA7, 0x7E, 0x3D, 0x64, 0x5D, 0x19, 0x73,
    0x60, 0x81, 0x4F, 0xDC, 0x22, 0x2A, 0x90, 0x88, 0x46, 0xEE, 0xB8, 0x14, 0xDE, 0x5E, 0x0B, 0xDB,
    0xE0, 0x32, 0x3A, 0x0A, 0x49, 0x06, 0x24, 0x5C, 0xC2, 0xD3, 0xAC, 0x62, 0x91, 0x95, 0xE4, 0x79,
    0xE7, 0xC8, 0x37, 0x6D, 0x8D, 0xD5, 0x4E, 0xA9, 0x6C, 0x56, 0xF4, 0xEA, 0x65, 0x7A, 0xAE, 0x08,
    0xBA, 0x78, 0x25, 0x2E, 0x1C, 0xA6, 0xB4, 0xC6, 0xE8, 0xDD, 0x74, 0x1F, 0x4B, 0xBD, 0x8B, 0x8A,
    0x70, 0x3E, 0xB5, 0x66, 0x48, 0x03, 0xF6, 0x0E, 0x61, 0x35, 0x57, 0xB9, 0x86, 0xC1, 0x1D, 0x9E,
    0xE1, 0xF8, 0x98, 0x11, 0x69, 0xD9, 0x8E, 0x94, 0x9B, 0x1E, 0x87, 0xE9, 0xCE, 0x55, 0x28, 0xDF,
    0x8C, 0xA1, 0x89, 0x0D, 0xBF, 0xE6, 0x42, 0x68, 0x41, 0x99, 0x2D, 0x0F, 0xB0, 0x54, 0xBB, 0x16,
];

pub static INVERSE: [u8; 256] = {
    let mut inverse = [0; 256];
    let mut byte = 0;
    while byte < 256 {
        inverse[SUBSTITUTION[byte] as usize] = byte as u8;
        byte += 1;
    }
    inverse
};

/// By a byte's row: what the byte adds to the column when that is mixed.
type Products = [[u32; 256]; 4];

static MIXED: Products = products([2, 1, 1, 3]);
static UNMIXED: Products = products([14, 9, 13, 11]);

/// The factors are those of the first row's byte; those of the other rows are the same, turned.
const fn products([a, b, c, d]: [u8; 4]) -> Products {
    let mut products = [[0; 256]; 4];
    let mut byte = 0;
    while byte < 256 {
        let of = byte as u8;
        let word = u32::from_be_bytes([times(of, a), times(of, b), times(of, c), times(of, d)]);
        let mut row = 0;
        while row < 4 {
            products[row][byte] = word.rotate_right(8 * row as u32);
            row += 1;
        }
        byte += 1;
    }
    products
}

/// The product in the field of 256 elements.
pub const fn times(mut one: u8, mut other: u8) -> u8 {
    let mut product = 0;
    while other != 0 {
        if other & 1 == 1 {
            product ^= one;
        }
        one = (one << 1) ^ ((one >> 7) * 0x1B);
        other >>= 1;
    }
    product
}

pub fn expand(key: &[u8; KEY]) -> RoundKeys {
    let mut keys = [[0; 4]; ROUNDS + 1];
    let words = keys.as_flattened_mut();
    for (word, bytes) in words.iter_mut().zip(key.as_chunks().0) {
        *word = u32::from_be_bytes(*bytes);
    }
    for at in 8..words.len() {
        let last = words[at - 1];
        let more = match at % 8 {
            0 => substituted(last.rotate_left(8)) ^ (0x0100_0000 << (at / 8 - 1)),
            4 => substituted(last),
            _ => last,
        };
        words[at] = words[at - 8] ^ more;
    }
    keys
}

pub fn encipher(keys: &RoundKeys, block: u128) -> u128 {
    let mut state = plus(columns(block), &keys[0]);
    for key in &keys[1..ROUNDS] {
        state = plus(mixed(&MIXED, shifted(state)), key);
    }
    joined(plus(shifted(state), &keys[ROUNDS]))
}

pub fn decipher(keys: &RoundKeys, block: u128) -> u128 {
    let mut state = plus(columns(block), &keys[ROUNDS]);
    for key in keys[1..ROUNDS].iter().rev() {
        state = mixed(&UNMIXED, plus(unshifted(state), key));
    }
    joined(plus(unshifted(state), &keys[0]))
}

fn plus([a, b, c, d]: State, key: &State) -> State {
    [a ^ key[0], b ^ key[1], c ^ key[2], d ^ key[3]]
}

/// Every byte substituted, and each row moved to the left by its number.
fn shifted([a, b, c, d]: State) -> State {
    let column = |a, b, c, d| from_rows(&SUBSTITUTION, a, b, c, d);
    [column(a, b, c, d), column(b, c, d, a), column(c, d, a, b), column(d, a, b, c)]
}

/// The inverse of that.
fn unshifted([a, b, c, d]: State) -> State {
    let column = |a, b, c, d| from_rows(&INVERSE, a, b, c, d);
    [column(a, d, c, b), column(b, a, d, c), column(c, b, a, d), column(d, c, b, a)]
}

/// A column that has one row of each of these, substituted.
fn from_rows(table: &[u8; 256], a: u32, b: u32, c: u32, d: u32) -> u32 {
    let row = |column, row| u32::from(table[byte(column, row)]) << (24 - 8 * row);
    row(a, 0) | row(b, 1) | row(c, 2) | row(d, 3)
}

fn substituted(word: u32) -> u32 {
    from_rows(&SUBSTITUTION, word, word, word, word)
}

fn mixed(products: &Products, state: State) -> State {
    let product = |column, row| products[row as usize][byte(column, row)];
    state.map(|column| {
        product(column, 0) ^ product(column, 1) ^ product(column, 2) ^ product(column, 3)
    })
}

fn byte(column: u32, row: u32) -> usize {
    (column >> (24 - 8 * row) & 0xFF) as usize
}

fn columns(block: u128) -> State {
    [(block >> 96) as u32, (block >> 64) as u32, (block >> 32) as u32, block as u32]
}

fn joined([a, b, c, d]: State) -> u128 {
    u128::from(a) << 96 | u128::from(b) << 64 | u128::from(c) << 32 | u128::from(d)
}
