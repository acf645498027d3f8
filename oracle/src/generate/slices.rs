//! Pairs of byte strings to be compared from the back.

use crate::rng::Rng;

/// The longest of them, beyond the 255 bytes that a text may have.
pub const MOST: usize = 600;

/// Lengths about which a comparison by words or by lengths of one byte goes
/// wrong most easily.
const EDGES: [usize; 20] = [
    0, 1, 2, 3, 4, 5, 7, 8, 9, 15, 16, 17, 31, 32, 33, 254, 255, 256, 257, 511,
];

/// Two byte strings: equal, of unequal lengths (one at times the other's back or
/// front), or of one length with a common back before their first unequal pair.
pub fn slices(rng: &mut Rng) -> [Vec<u8>; 2] {
    let one = bytes(length(rng), rng);
    let other = match rng.below(10) {
        0 => one.clone(),
        1 => bytes(length(rng), rng),
        2 => one[rng.below(one.len() + 1)..].to_vec(),
        3 => one[..rng.below(one.len() + 1)].to_vec(),
        _ => parted(&one, rng),
    };
    match rng.chance(50) {
        true => [one, other],
        false => [other, one],
    }
}

fn length(rng: &mut Rng) -> usize {
    match rng.chance(40) {
        true => *rng.pick(&EDGES),
        false => rng.below(MOST + 1),
    }
}

/// Drawn bytes: all values, two letters, or the two bytes of small Greek letters.
fn bytes(length: usize, rng: &mut Rng) -> Vec<u8> {
    let sort = rng.below(3);
    let drawn = |at: usize| match sort {
        0 => rng.draw() as u8,
        1 => *rng.pick(b"ab"),
        _ if at % 2 == 0 => 0xCE,
        _ => rng.between(0xB1, 0xBF) as u8,
    };
    (0..length).map(drawn).collect()
}

/// The same but for one byte, and at times for bytes in front of it.
fn parted(one: &[u8], rng: &mut Rng) -> Vec<u8> {
    let mut other = one.to_vec();
    if one.is_empty() {
        return other;
    }
    let at = match rng.below(4) {
        0 => rng.below(one.len().min(9)),
        1 => one.len() - 1 - rng.below(one.len().min(9)),
        _ => rng.below(one.len()),
    };
    other[at] ^= 1 << rng.below(8);
    if rng.chance(50) {
        for byte in &mut other[..at] {
            *byte = rng.draw() as u8;
        }
    }
    other
}
