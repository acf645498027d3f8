//! Sequences of UTF-8, well-formed and ill-formed, by the table of RFC 3629.

use crate::reader::POOL_LIMIT;
use crate::rng::Rng;

/// The first bytes of a row of the table, and the second bytes that may follow
/// them; all further bytes are 80 to BF.
pub struct Row {
    pub first: (u8, u8),
    pub second: (u8, u8),
    pub length: usize,
}

/// The rows of more than one byte.
pub const ROWS: [Row; 8] = [
    row(0xC2, 0xDF, 0x80, 0xBF, 2),
    row(0xE0, 0xE0, 0xA0, 0xBF, 3),
    row(0xE1, 0xEC, 0x80, 0xBF, 3),
    row(0xED, 0xED, 0x80, 0x9F, 3),
    row(0xEE, 0xEF, 0x80, 0xBF, 3),
    row(0xF0, 0xF0, 0x90, 0xBF, 4),
    row(0xF1, 0xF3, 0x80, 0xBF, 4),
    row(0xF4, 0xF4, 0x80, 0x8F, 4),
];

const fn row(first: u8, last: u8, low: u8, high: u8, length: usize) -> Row {
    Row {
        first: (first, last),
        second: (low, high),
        length,
    }
}

impl Row {
    /// This first byte with the lowest bytes that may follow it.
    pub fn lowest(&self, first: u8) -> Vec<u8> {
        let mut bytes = vec![0x80; self.length];
        bytes[0] = first;
        bytes[1] = self.second.0;
        bytes
    }
}

/// The row of a first byte; none for a byte that begins no sequence.
pub fn row_of(first: u8) -> Option<&'static Row> {
    ROWS.iter()
        .find(|row| (row.first.0..=row.first.1).contains(&first))
}

/// A character of two to four bytes, often one at the edge of a row.
pub fn character(rng: &mut Rng) -> String {
    const EDGES: [char; 12] = [
        '\u{80}',
        '\u{7ff}',
        '\u{800}',
        '\u{fff}',
        '\u{1000}',
        '\u{cfff}',
        '\u{d7ff}',
        '\u{e000}',
        '\u{ffff}',
        '\u{10000}',
        '\u{fffff}',
        '\u{10ffff}',
    ];
    let drawn = match rng.below(4) {
        0 => Some(*rng.pick(&EDGES)),
        1 => char::from_u32(rng.between(0x80, 0x7FF) as u32),
        2 => char::from_u32(rng.between(0x800, 0xFFFF) as u32),
        _ => char::from_u32(rng.between(0x1_0000, 0x10_FFFF) as u32),
    };
    // A surrogate is no character.
    drawn.unwrap_or('\u{b5}').to_string()
}

/// Bytes that are mostly ill-formed: a byte that begins no sequence, or one that
/// does with a wrong byte behind it or too few.
pub fn ill_formed(rng: &mut Rng) -> Vec<u8> {
    let first = rng.between(0x80, 0xFF) as u8;
    let Some(row) = row_of(first) else {
        return match rng.below(3) {
            0 => vec![first],
            1 => vec![first, 0x80],
            _ => vec![first, 0x80, 0xBF, 0x80],
        };
    };
    let mut bytes = row.lowest(first);
    match rng.below(3) {
        0 => bytes.truncate(rng.between(1, row.length - 1)),
        1 => {
            bytes[1] = *rng.pick(&[row.second.0 - 1, row.second.1 + 1, 0x7F, 0xC0, b'a']);
        }
        _ => {
            let at = rng.between(1, row.length - 1);
            bytes[at] = *rng.pick(&[0x7F, 0xC0, 0xC2, b'a', 0xFF]);
        }
    }
    bytes
}

/// A pool of characters, in a third of the draws with something that is none:
/// mostly short, at times as long as may be.
pub fn pool(rng: &mut Rng) -> Vec<u8> {
    let most = match rng.below(50) {
        0 => POOL_LIMIT,
        1..=5 => 2_000,
        _ => 120,
    };
    let odd = rng.chance(33);
    let length = rng.below(most + 1);
    let mut pool = Vec::new();
    while pool.len() < length {
        match rng.below(6) {
            0 => pool.extend(vec![rng.between(0x20, 0x7E) as u8; rng.below(40)]),
            _ => pool.extend(character(rng).bytes()),
        }
    }
    pool.truncate(POOL_LIMIT);
    if odd {
        let at = match rng.below(4) {
            0 => pool.len(),
            _ => rng.below(pool.len() + 1),
        };
        let bytes = match rng.below(4) {
            0 => vec![*rng.pick(&[0x00, 0x09, 0x0A, 0x1F, 0x7F])],
            1 => vec![rng.draw() as u8],
            _ => ill_formed(rng),
        };
        pool.splice(at..at, bytes);
        pool.truncate(POOL_LIMIT);
    }
    pool
}
