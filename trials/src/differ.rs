//! The same records given to both; a difference is printed whole.

use menqachu::Record;
use oracle::answers::ROOM;
use oracle::generate::encode::Encoded;
use oracle::generate::questions::question;
use oracle::generate::{self, Pair};
use oracle::model::Item;
use oracle::rng::Rng;
use oracle::{Answer, Owner, Side};

use crate::tally::{Pairs, Tally, refusal};

/// The byte in every place of a lent buffer, so that one that changes is seen.
const MARK: u8 = 0xa5;

pub fn record(encoded: &Encoded) -> Record<'_> {
    Record { stream: &encoded.stream, pool: &encoded.pool }
}

/// Pairs checked with the room that the programs lend, with the room that the message needs, and with a byte less.
pub fn checks(seed: u64, count: u64) -> Pairs {
    let mut rng = Rng::new(seed);
    let mut pairs = Pairs::default();
    for _ in 0..count {
        let pair = generate::pair(&mut rng);
        let meant = pair.check(ROOM);
        pairs.count(&pair, &meant);
        let needed = meant.length as usize;
        for room in [ROOM, needed, needed.saturating_sub(1)] {
            check(&mut pairs.tally, &pair, &meant, room);
        }
    }
    pairs
}

/// An answer to a check as a row of a tally.
pub fn class(meant: &Answer) -> String {
    match meant.number {
        0 => "accepted".into(),
        number @ 1..=9 => refusal(number, meant.side),
        number => format!("verdict {number}"),
    }
}

/// Hold the check's answer, with this room, to what it is meant to be with all the room it needs.
pub fn check(tally: &mut Tally, pair: &Pair, meant: &Answer, room: usize) -> u32 {
    let mut out = vec![MARK; room];
    let lent = pair.clone();
    let answer = menqachu::check(record(&lent.current), record(&lent.released), &mut out);
    let same = answers(&answer, &out, &meant.clone().within(room)) && lent == *pair;
    tally.answer(same, (pair, room, answer, meant));
    answer.number
}

/// Whether an answer and its buffer are what they are meant to be: numbers, text, and every byte behind it.
fn answers(answer: &menqachu::Answer, out: &[u8], meant: &Answer) -> bool {
    let numbers = (answer.number, answer.side, answer.place, answer.len);
    let (front, rest) = out.split_at(meant.text.len());
    numbers == (meant.number, meant.side, meant.place as usize, meant.length as usize)
        && front == meant.text.as_bytes()
        && rest.iter().all(|&b| b == MARK)
}

/// Records read as both sides, with the room that the programs lend, with the room that the list needs, and with a byte less.
pub fn lists(seed: u64, count: u64) -> Tally {
    let mut rng = Rng::new(seed);
    let mut tally = Tally::default();
    for nth in 0..count {
        let pair = generate::pair(&mut rng);
        let encoded = if nth % 2 == 0 { pair.current } else { pair.released };
        for side in Side::BOTH {
            let meant = oracle::list(&encoded.stream, &encoded.pool, side, usize::MAX);
            let needed = meant.length as usize;
            tally.question(match meant.number {
                0 => format!("listed, {}", if side == Side::Current { "current" } else { "released" }),
                number => refusal(number, meant.side),
            });
            for room in [ROOM, needed, needed.saturating_sub(1)] {
                list(&mut tally, &encoded, side, &meant, room);
            }
        }
    }
    tally
}

/// Hold the list call's answer, with this room, to what it is meant to be with all the room it needs.
pub fn list(tally: &mut Tally, encoded: &Encoded, side: Side, meant: &Answer, room: usize) {
    let mut out = vec![MARK; room];
    let lent = encoded.clone();
    let read_as = match side {
        Side::Current => menqachu::Side::Current,
        Side::Released => menqachu::Side::Released,
    };
    let answer = menqachu::list(record(&lent), read_as, &mut out);
    let same = answers(&answer, &out, &meant.clone().within(room)) && lent == *encoded;
    tally.answer(same, (encoded, side, room, answer));
}

/// Records asked for names that they have, and for one that they do not have: every other one of a pair, every other one of
/// structures and families that refer to each other.
pub fn owners(seed: u64, count: u64) -> Tally {
    let mut rng = Rng::new(seed);
    let mut tally = Tally::default();
    for nth in 0..count {
        let (encoded, asked) = match nth % 2 {
            0 => (generate::pair(&mut rng).current, b"nobody".to_vec()),
            _ => {
                let question = question(&mut rng);
                (question.record, question.name)
            }
        };
        for name in names(&encoded, asked, &mut rng) {
            let meant = owner(&mut tally, &encoded, &name);
            tally.question(match meant {
                Owner::None => "nobody".into(),
                Owner::Named(_) => "owner".into(),
                Owner::Refused(r) => refusal(r.number, 0),
            });
        }
    }
    tally
}

/// Hold the owner call's answer to the Rust's, which is given back.
pub fn owner(tally: &mut Tally, encoded: &Encoded, name: &[u8]) -> Owner {
    let meant = oracle::owner(&encoded.stream, &encoded.pool, name);
    let (lent, asked) = (encoded.clone(), name.to_vec());
    let answer = match menqachu::owner(record(&lent), &asked) {
        menqachu::Owner::Nobody => (0, 0, 0),
        menqachu::Owner::Named { start, len } => (1, start as u32, len as u32),
        menqachu::Owner::Refused { number, place } => (2, number, place as u32),
    };
    let same = answer == meant.numbers() && lent == *encoded && asked == name;
    tally.answer(same, (encoded, name, answer, meant));
    meant
}

/// Names to ask for: this one, and some of the record's types.
pub fn names(encoded: &Encoded, asked: Vec<u8>, rng: &mut Rng) -> Vec<Vec<u8>> {
    let mut names = vec![asked];
    if let Ok(record) = oracle::reader::read(Side::Current, &encoded.stream, &encoded.pool) {
        let mut types: Vec<String> = record.content.items.iter().filter_map(type_name).collect();
        while names.len() < 5 && !types.is_empty() {
            names.push(types.swap_remove(rng.below(types.len())).into_bytes());
        }
    }
    names
}

fn type_name(item: &Item) -> Option<String> {
    match item {
        Item::Struct(s) => Some(s.name.clone()),
        Item::Family(f) => Some(f.name.clone()),
        _ => None,
    }
}
