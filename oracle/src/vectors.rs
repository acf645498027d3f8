//! Files of cases with their answers, packed little-endian. Fixed cases come
//! first, then drawn ones until each number has its share, then the rest. All
//! texts are ASCII: `utf8_vectors` has the others.

use std::collections::BTreeMap;

use crate::answers::{Answer, ROOM, list, owner};
use crate::generate::encode::Encoded;
use crate::generate::findings::{self, lists, owners, records};
use crate::generate::questions::{self, Question};
use crate::generate::{self, Aim, Pair};
use crate::model::Side;
use crate::pointers::{self, NEITHER, OTHER};
use crate::reader::{LONG, POOL_LIMIT, read};
use crate::rng::Rng;
use crate::verdicts::{FIRST_VERDICT, LAST_VERDICT};

/// How many records of refusal 8 a file of records or lists has, each of them
/// above 16,384 bytes.
pub const LONGS: usize = 12;

/// A file being packed, with a count of its cases by number and side.
#[derive(Default)]
pub(crate) struct Packer {
    pub(crate) bytes: Vec<u8>,
    pub(crate) cases: usize,
    counts: BTreeMap<(u32, u32), usize>,
}

impl Packer {
    pub(crate) fn byte(&mut self, byte: u8) {
        self.bytes.push(byte);
    }

    pub(crate) fn word(&mut self, word: u32) {
        self.bytes.extend_from_slice(&word.to_le_bytes());
    }

    pub(crate) fn part(&mut self, part: &[u8]) {
        self.word(part.len().try_into().expect("a part has 32 bits"));
        self.bytes.extend_from_slice(part);
    }

    pub(crate) fn record(&mut self, record: &Encoded) {
        self.part(&record.stream);
        self.part(&record.pool);
    }

    pub(crate) fn count(&mut self, number: u32, side: u32) {
        self.cases += 1;
        *self.counts.entry((number, side)).or_default() += 1;
    }

    pub(crate) fn has(&self, number: u32, side: u32) -> usize {
        self.counts.get(&(number, side)).copied().unwrap_or(0)
    }
}

/// The file of `vectors-record`: `count` records, a sixtieth of them for each
/// refusal and side. Of refusal 8 there are `longs`.
pub fn records(seed: u64, count: usize, longs: usize) -> Vec<u8> {
    let mut rng = Rng::ascii(seed);
    let mut packer = Packer::default();
    for fixed in records::records() {
        for &side in fixed.sides {
            pack_record(&mut packer, &fixed.record, side);
        }
    }
    for (number, side) in refusals() {
        let share = match number {
            LONG => longs.div_ceil(2),
            _ => count.div_ceil(60),
        };
        while packer.has(number, side.number()) < share {
            pack_record(&mut packer, &generate::record(number, side, &mut rng), side);
        }
    }
    while packer.cases < count {
        let side = *rng.pick(&Side::BOTH);
        pack_record(&mut packer, &generate::record(0, side, &mut rng), side);
    }
    packer.bytes
}

/// The fixed records that are not made to be long.
fn short_records() -> Vec<Encoded> {
    let records = records::records().into_iter().map(|fixed| fixed.record);
    records
        .filter(|record| record.stream.len().max(record.pool.len()) < POOL_LIMIT)
        .collect()
}

/// Each refusal of a record on each side.
pub(crate) fn refusals() -> Vec<(u32, Side)> {
    let both = |number| Side::BOTH.map(|side| (number, side));
    (1..=9).flat_map(both).collect()
}

pub(crate) fn pack_record(packer: &mut Packer, record: &Encoded, side: Side) {
    let (number, place) = match read(side, &record.stream, &record.pool) {
        Ok(_) => (0, 0),
        Err(refusal) => (refusal.number, refusal.place),
    };
    packer.count(number, side.number());
    packer.record(record);
    packer.byte(side.number() as u8);
    packer.byte(number as u8);
    packer.word(place as u32);
}

/// The file of `vectors-owner`: `count` questions.
pub fn owners(seed: u64, count: usize) -> Vec<u8> {
    let mut rng = Rng::ascii(seed);
    let mut packer = Packer::default();
    for fixed in owners::questions() {
        for question in fixed.questions() {
            pack_owner(&mut packer, &question);
        }
    }
    for record in short_records() {
        let name = b"a".to_vec();
        pack_owner(&mut packer, &Question { record, name });
    }
    while packer.cases < count {
        pack_owner(&mut packer, &questions::question(&mut rng));
    }
    packer.bytes
}

pub(crate) fn pack_owner(packer: &mut Packer, question: &Question) {
    let Question { record, name } = question;
    let (answer, a, b) = owner(&record.stream, &record.pool, name).numbers();
    packer.count(answer.into(), 0);
    packer.record(record);
    packer.part(name);
    packer.byte(answer);
    packer.word(a);
    packer.word(b);
}

/// The file of `vectors-list`: `count` records, a hundredth of them for each
/// refusal and side.
pub fn lists(seed: u64, count: usize) -> Vec<u8> {
    let mut rng = Rng::ascii(seed);
    let mut packer = Packer::default();
    for fixed in lists::lists() {
        let sides = match fixed.label.starts_with("a11") {
            true => &Side::BOTH[..1],
            false => &Side::BOTH,
        };
        for &side in sides {
            pack_list(&mut packer, &fixed.encoded(), side, ROOM);
        }
    }
    for record in short_records() {
        for side in Side::BOTH {
            pack_list(&mut packer, &record, side, ROOM);
        }
    }
    for (number, side) in refusals() {
        let share = match number {
            LONG => LONGS / 2,
            _ => count.div_ceil(100),
        };
        while packer.has(number, side.number()) < share {
            let record = generate::record(number, side, &mut rng);
            pack_list(&mut packer, &record, side, *rng.pick(&[ROOM, 0]));
        }
    }
    while packer.cases < count {
        let side = *rng.pick(&Side::BOTH);
        let record = generate::record(0, side, &mut rng);
        let answer = list(&record.stream, &record.pool, side, ROOM);
        pack_list(&mut packer, &record, side, room_for(&answer, &mut rng));
    }
    packer.bytes
}

/// Mostly the room that the programs lend, else what the text needs or a byte
/// less.
pub(crate) fn room_for(answer: &Answer, rng: &mut Rng) -> usize {
    let needed = answer.length as usize;
    match rng.below(10) {
        0 => needed,
        1 => needed.saturating_sub(1),
        _ => ROOM,
    }
}

pub(crate) fn pack_list(packer: &mut Packer, record: &Encoded, side: Side, room: usize) {
    let answer = list(&record.stream, &record.pool, side, room);
    packer.count(answer.number, side.number());
    packer.record(record);
    packer.byte(side.number() as u8);
    pack_answer(packer, &answer, room);
}

/// The room, the four numbers, and the text where one is written.
fn pack_answer(packer: &mut Packer, answer: &Answer, room: usize) {
    packer.word(room as u32);
    packer.word(answer.number);
    packer.word(answer.side);
    packer.word(answer.place);
    packer.word(answer.length);
    packer.bytes.extend_from_slice(answer.text.as_bytes());
}

/// What pairs without a share are aimed at.
const REST: [Aim; 5] = [
    Aim::Accepted,
    Aim::Accepted,
    Aim::Mutated,
    Aim::Wild,
    Aim::Scrambled,
];

/// The file of `vectors-check`: `count` pairs, a seventy-fifth of them but no
/// more than 40 for each verdict, and for each refusal and side.
pub fn checks(seed: u64, count: usize) -> Vec<u8> {
    let mut rng = Rng::ascii(seed);
    let mut packer = Packer::default();
    for fixed in findings::pairs() {
        pack_check(&mut packer, &fixed.encoded(), ROOM);
    }
    for record in short_records() {
        for side in Side::BOTH {
            pack_check(&mut packer, &Pair::beside(record.clone(), side), ROOM);
        }
    }
    let share = count.div_ceil(75).min(40);
    for (number, side) in refusals() {
        while packer.has(number, side.number()) < share {
            let pair = generate::aimed(Aim::Refusal(number, side), &mut rng);
            pack_check(&mut packer, &pair, *rng.pick(&[ROOM, 0]));
        }
    }
    for verdict in FIRST_VERDICT..=LAST_VERDICT {
        while packer.has(verdict, 0) < share {
            let pair = generate::aimed(Aim::Verdict(verdict), &mut rng);
            let room = room_for(&pair.check(ROOM), &mut rng);
            pack_check(&mut packer, &pair, room);
        }
    }
    while packer.cases < count {
        let aim = *rng.pick(&REST);
        let pair = generate::aimed(aim, &mut rng);
        let room = room_for(&pair.check(ROOM), &mut rng);
        pack_check(&mut packer, &pair, room);
    }
    packer.bytes
}

pub(crate) fn pack_check(packer: &mut Packer, pair: &Pair, room: usize) {
    let answer = pair.check(room);
    packer.count(answer.number, answer.side);
    packer.record(&pair.current);
    packer.record(&pair.released);
    pack_answer(packer, &answer, room);
}

/// The file of `vectors-pointers`: `count` records, a sixteenth of them for 0,
/// for 59, for 60 and for each refusal. Of refusal 8 there are two.
pub fn pointers(seed: u64, count: usize) -> Vec<u8> {
    let mut rng = Rng::ascii(seed);
    let mut packer = Packer::default();
    for fixed in findings::pointers::records() {
        pack_pointers(&mut packer, &fixed.record);
    }
    for record in short_records() {
        pack_pointers(&mut packer, &record);
    }
    let drawn = generate::pointers::record;
    let share = count.div_ceil(16);
    for number in [0, NEITHER, OTHER] {
        while packer.has(number, 0) < share {
            pack_pointers(&mut packer, &drawn(&mut rng));
        }
    }
    for number in 1..=9 {
        let share = if number == LONG { 2 } else { share };
        while packer.has(number, 0) < share {
            let record = generate::pointers::refused(number, &mut rng);
            pack_pointers(&mut packer, &record);
        }
    }
    while packer.cases < count {
        pack_pointers(&mut packer, &drawn(&mut rng));
    }
    packer.bytes
}

/// The record, the number and the place: the side and the length are 0.
pub(crate) fn pack_pointers(packer: &mut Packer, record: &Encoded) {
    let answer = pointers::pointers(&record.stream, &record.pool);
    packer.count(answer.number, answer.side);
    packer.record(record);
    packer.byte(answer.number as u8);
    packer.word(answer.place);
}
