//! A pair of records as the load call writes it: the check program's four parts.

use std::io;

use super::parts::Parts;

/// The outcomes that a pair can have: accepted, or one of these verdicts.
pub const OUTCOMES: [u32; 6] = [0, 20, 34, 35, 36, 43];

/// How many seeds there are; the last is one less.
pub const SEEDS: u32 = 1 << 31;

#[derive(Clone, Debug)]
pub struct Pair {
    pub current: Parts,
    pub released: Parts,
}

impl Pair {
    /// Reads a pair from its bytes.
    pub fn read(mut bytes: &[u8]) -> io::Result<Pair> {
        Ok(Pair { current: Parts::read(&mut bytes)?, released: Parts::read(&mut bytes)? })
    }
}
