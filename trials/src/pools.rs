//! Pools of UTF-8 and of bytes that are not, with texts that begin and end anywhere in them: the reader beside Rust's own decoder,
//! asked here and not by way of the oracle.

use menqachu::{Record, Side, list};
use oracle::generate::sequences::pool;
use oracle::rng::Rng;

use crate::tally::Tally;

const OUTSIDE: u32 = 4;
const LETTER: u32 = 7;

/// Where the alias stands whose name is the text.
const PLACE: usize = 5;

/// So many drawn pools, each with a drawn text.
pub fn run(seed: u64, count: u64) -> Tally {
    let mut rng = Rng::new(seed);
    let mut tally = Tally::default();
    for _ in 0..count {
        ask(&mut tally, &mut rng);
    }
    tally
}

/// Hold the list call's answer to a record with a drawn pool to what Rust's decoder says of it.
pub fn ask(tally: &mut Tally, rng: &mut Rng) {
    let pool = pool(rng).into_boxed_slice();
    let (start, length) = text(&pool, rng);
    let [low, high] = (start as u16).to_le_bytes();
    let stream = [0x01, 0xFF, 0xFF, 0, 0, 0x03, low, high, length as u8, 0, 0, 0, 0x0F];
    let (class, number, place) = meant(&pool, start, length);
    let answer = list(Record { stream: &stream, pool: &pool }, Side::Released, &mut []);
    let side = u32::from(number != 0);
    tally.question(class.into());
    let same = (answer.number, answer.side, answer.place, answer.len) == (number, side, place, 0);
    tally.answer(same, (&pool, start, length, answer));
}

/// A text at a drawn place; at times empty, at the pool's end or past it.
fn text(pool: &[u8], rng: &mut Rng) -> (usize, usize) {
    let start = match rng.below(8) {
        0 => pool.len(),
        1 => pool.len() + 1,
        _ => rng.below(pool.len() + 1),
    };
    let left = pool.len().saturating_sub(start).min(254);
    let length = match rng.below(4) {
        0 => 0,
        1 => left,
        2 => left + 1,
        _ => rng.below(left + 1),
    };
    (start, length)
}

/// What is answered, as a row of a tally, its number and its place.
fn meant(pool: &[u8], start: usize, length: usize) -> (&'static str, u32, usize) {
    let decoded = std::str::from_utf8(pool);
    let whole = decoded.map_or_else(|error| error.valid_up_to(), str::len);
    if let Some(place) = pool[..whole].iter().position(u8::is_ascii_control) {
        return ("refusal 7, a control byte", LETTER, place);
    }
    let Ok(text) = decoded else {
        return ("refusal 7, an ill-formed sequence", LETTER, whole);
    };
    let end = start + length;
    let class = match (text.is_char_boundary(start), text.is_char_boundary(end)) {
        _ if end > text.len() => "refusal 4, a text past the pool",
        (true, true) => return ("readable", 0, 0),
        (false, _) if length == 0 => "refusal 4, an empty text inside a sequence",
        (false, _) => "refusal 4, a text that begins inside a sequence",
        (true, false) => "refusal 4, a text that ends inside a sequence",
    };
    (class, OUTSIDE, PLACE)
}
