//! Files of cases whose texts are not all ASCII, request W-206: each stands behind
//! the cases of [`crate::vectors`] in the file of its name that the gate replays.
//! Fixed cases come first, then `count` drawn ones.

use crate::answers::{ROOM, list};
use crate::draft_vectors::{one, pack, several, small};
use crate::edits::Edit;
use crate::generate::edits::{Fault, Series, faulty_series, series};
use crate::generate::encode::Encoded;
use crate::generate::findings::utf8;
use crate::generate::questions::{Question, question};
use crate::generate::{self, Aim, Pair};
use crate::model::Side;
use crate::reader::{LETTER, LONG, OUTSIDE};
use crate::rng::Rng;
use crate::vectors::{
    Packer, pack_check, pack_list, pack_owner, pack_pointers, pack_record, refusals, room_for,
};
use crate::verdicts::{FIRST_VERDICT, LAST_VERDICT};

/// The refusals that W-206 speaks of, each on each side.
const MOVED: [(u32, Side); 4] = [
    (OUTSIDE, Side::Current),
    (OUTSIDE, Side::Released),
    (LETTER, Side::Current),
    (LETTER, Side::Released),
];

/// Whether a pool has a byte beyond ASCII.
fn beyond_ascii(record: &Encoded) -> bool {
    !record.pool.is_ascii()
}

/// What is drawn, until it is as it should be.
fn drawn<T>(draw: impl Fn(&mut Rng) -> T, right: impl Fn(&T) -> bool, rng: &mut Rng) -> T {
    loop {
        let drawn = draw(rng);
        if right(&drawn) {
            return drawn;
        }
    }
}

/// Records: a fourth of those drawn are of 4 and of 7, the others readable or of
/// the other refusals.
pub fn records(seed: u64, count: usize) -> Vec<u8> {
    let mut rng = Rng::new(seed);
    let mut packer = Packer::default();
    for fixed in utf8::records() {
        for &side in fixed.sides {
            pack_record(&mut packer, &fixed.record, side);
        }
    }
    let others = (refusals().into_iter()).filter(|&(number, _)| number != LONG);
    let others: Vec<(u32, Side)> = others.collect();
    for nth in 0..count {
        let (number, side) = match nth % 4 {
            0 => MOVED[nth / 4 % 4],
            1 => others[nth / 4 % others.len()],
            _ => (0, *rng.pick(&Side::BOTH)),
        };
        let draw = |rng: &mut Rng| generate::record(number, side, rng);
        pack_record(&mut packer, &drawn(draw, beyond_ascii, &mut rng), side);
    }
    packer.bytes
}

/// Questions for the owner call; every eighth name is a part of a character.
pub fn owners(seed: u64, count: usize) -> Vec<u8> {
    let mut rng = Rng::new(seed);
    let mut packer = Packer::default();
    for fixed in utf8::questions() {
        for question in fixed.questions() {
            pack_owner(&mut packer, &question);
        }
    }
    for fixed in utf8::edges() {
        let (record, name) = (fixed.record, "µ".as_bytes().to_vec());
        pack_owner(&mut packer, &Question { record, name });
    }
    for nth in 0..count {
        let right = |question: &Question| beyond_ascii(&question.record);
        let mut asked = drawn(question, right, &mut rng);
        if nth % 8 == 0 {
            asked.name.pop();
            asked.name.push(0xC2);
        }
        pack_owner(&mut packer, &asked);
    }
    packer.bytes
}

/// Lists: a fourth of those drawn are of 4 and of 7.
pub fn lists(seed: u64, count: usize) -> Vec<u8> {
    let mut rng = Rng::new(seed);
    let mut packer = Packer::default();
    for fixed in utf8::lists() {
        let record = fixed.encoded();
        let needed = list(&record.stream, &record.pool, Side::Current, ROOM).length as usize;
        for side in Side::BOTH {
            for room in [ROOM, needed, needed - 1] {
                pack_list(&mut packer, &record, side, room);
            }
        }
    }
    for fixed in utf8::edges() {
        for &side in fixed.sides {
            pack_list(&mut packer, &fixed.record, side, ROOM);
        }
    }
    for nth in 0..count {
        let (number, side) = match nth % 4 {
            0 => MOVED[nth / 4 % 4],
            _ => (0, *rng.pick(&Side::BOTH)),
        };
        let draw = |rng: &mut Rng| generate::record(number, side, rng);
        let record = drawn(draw, beyond_ascii, &mut rng);
        let answer = list(&record.stream, &record.pool, side, ROOM);
        pack_list(&mut packer, &record, side, room_for(&answer, &mut rng));
    }
    packer.bytes
}

/// Pairs: fixed ones, the edges beside a small record, and of those drawn half
/// for the verdicts in turn, the others refused by 4 and 7, accepted or changed.
pub fn checks(seed: u64, count: usize) -> Vec<u8> {
    let mut rng = Rng::new(seed);
    let mut packer = Packer::default();
    for fixed in utf8::pairs() {
        let pair = fixed.encoded();
        let needed = pair.check(ROOM).length as usize;
        for room in [ROOM, needed, needed.saturating_sub(1)] {
            pack_check(&mut packer, &pair, room);
        }
    }
    for fixed in utf8::edges() {
        for &side in fixed.sides {
            pack_check(&mut packer, &Pair::beside(fixed.record.clone(), side), ROOM);
        }
    }
    for nth in 0..count {
        let aim = match nth % 8 {
            0 => {
                let (number, side) = MOVED[nth / 8 % 4];
                Aim::Refusal(number, side)
            }
            1 => Aim::Accepted,
            2 => Aim::Mutated,
            3 => Aim::Wild,
            _ => {
                let verdicts = LAST_VERDICT + 1 - FIRST_VERDICT;
                Aim::Verdict(FIRST_VERDICT + (nth as u32 / 8 * 4 + nth as u32 % 4) % verdicts)
            }
        };
        let pair = drawn(|rng| generate::aimed(aim, rng), tells, &mut rng);
        let room = room_for(&pair.check(ROOM), &mut rng);
        pack_check(&mut packer, &pair, room);
    }
    packer.bytes
}

/// Whether a pair has characters beyond ASCII.
fn tells(pair: &Pair) -> bool {
    beyond_ascii(&pair.current) || beyond_ascii(&pair.released)
}

/// Records for the check of pointers.
pub fn pointers(seed: u64, count: usize) -> Vec<u8> {
    let mut rng = Rng::new(seed);
    let mut packer = Packer::default();
    for fixed in utf8::edges() {
        pack_pointers(&mut packer, &fixed.record);
    }
    for _ in 0..count {
        let record = drawn(generate::pointers::record, beyond_ascii, &mut rng);
        pack_pointers(&mut packer, &record);
    }
    packer.bytes
}

/// Calls of a draft: additions, drafts and copies that 4 and 7 refuse, and series
/// of edits.
pub fn drafts(seed: u64, count: usize) -> Vec<u8> {
    let mut rng = Rng::new(seed);
    let mut packer = Packer::default();
    let has_units = |draft: &Series| !draft.buffer.is_ascii();
    for number in [OUTSIDE, LETTER] {
        for fault in [Fault::Draft(number), Fault::Copy(number)] {
            for _ in 0..6 {
                let draw = |rng: &mut Rng| small(|rng| faulty_series(fault, rng), rng);
                let draft = drawn(draw, has_units, &mut rng);
                one(&mut packer, draft, &mut rng);
            }
        }
        for _ in 0..6 {
            let draft = small(|rng| faulty_series(Fault::None, rng), &mut rng);
            let added = |edit: &Edit| matches!(edit, Edit::Add(more) if beyond_ascii(more));
            let next = drawn(|rng| draft.refused_addition(number, rng), added, &mut rng);
            pack(&mut packer, 1, &draft.buffer, Some(&next), &draft.copy);
        }
    }
    while packer.cases < count {
        let draft = drawn(|rng| small(series, rng), has_units, &mut rng);
        several(&mut packer, draft, &mut rng);
    }
    packer.bytes
}
