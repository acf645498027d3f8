//! The file of `vectors-draft`: calls of a draft with their answers. Fixed cases
//! come first, then drawn ones until each number has its share, then the rest. All
//! texts are ASCII: `utf8_vectors` has the others.

use crate::edits::{Edit, Edited, count, edit, held, parts_of};
use crate::generate::edits::{Fault, Series, faulty_series, full_edit, full_series, series};
use crate::generate::encode::Encoded;
use crate::generate::findings::edits::{GIVEN, edits};
use crate::reader::VAST;
use crate::rng::Rng;
use crate::vectors::Packer;

/// How many cases each number has at least, and each side of a record's
/// refusals.
const SHARE: usize = 40;

/// How many cases of 8 are of records that are made to be long.
const LONGS: usize = 6;

/// Drawn drafts and copies have up to so many bytes each, unless they are to be
/// long.
const SMALL: usize = 900;

/// `cases` calls and more.
pub fn drafts(seed: u64, cases: usize) -> Vec<u8> {
    let mut rng = Rng::ascii(seed);
    let mut packer = Packer::default();
    for fixed in edits() {
        pack(
            &mut packer,
            GIVEN,
            &fixed.buffer,
            fixed.call.as_ref(),
            &fixed.copy,
        );
    }
    for number in 1..=9 {
        while packer.has(number, 0) < SHARE {
            let fault = Fault::Draft(number);
            let draft = small(|rng| faulty_series(fault, rng), &mut rng);
            one(&mut packer, draft, &mut rng);
        }
        let share = if number == 8 { LONGS } else { SHARE / 2 };
        while packer.has(number, 1) < share {
            let fault = Fault::Copy(number);
            let draft = match number {
                8 => faulty_series(fault, &mut rng),
                _ => small(|rng| faulty_series(fault, rng), &mut rng),
            };
            one(&mut packer, draft, &mut rng);
        }
    }
    for number in [1, 2, 3, 4, 5, 6, 7, VAST] {
        for _ in 0..SHARE / 2 {
            let draft = small(|rng| faulty_series(Fault::None, rng), &mut rng);
            let next = draft.refused_addition(number, &mut rng);
            pack(
                &mut packer,
                rng.below(9),
                &draft.buffer,
                Some(&next),
                &draft.copy,
            );
        }
    }
    for _ in 0..LONGS {
        let full = full_series(&mut rng);
        let next = full_edit(&mut rng);
        pack(
            &mut packer,
            rng.below(9),
            &full.buffer,
            Some(&next),
            &full.copy,
        );
    }
    while packer.cases < cases || wanting(&packer) {
        let draft = small(series, &mut rng);
        several(&mut packer, draft, &mut rng);
    }
    packer.bytes
}

/// A drawn draft and copy that are small, with little room behind the draft.
pub(crate) fn small(draw: impl Fn(&mut Rng) -> Series, rng: &mut Rng) -> Series {
    loop {
        let mut draft = draw(rng);
        let front = parts_of(&held(&draft.buffer)).len();
        draft.buffer.truncate(front + 200);
        let copy = draft.copy.stream.len() + draft.copy.pool.len();
        if draft.buffer.len().max(copy) <= SMALL {
            return draft;
        }
    }
}

/// Whether a number has not come often enough.
fn wanting(packer: &Packer) -> bool {
    let numbers = [0, 10, 55, 56];
    numbers.iter().any(|&number| packer.has(number, 0) < SHARE)
}

/// A few edits in a row.
pub(crate) fn several(packer: &mut Packer, mut draft: Series, rng: &mut Rng) {
    let mut changed = count(&draft.buffer, &draft.copy).changed;
    for _ in 0..rng.between(1, 4) {
        let next = draft.next_edit(rng);
        let edited = pack(packer, changed, &draft.buffer, Some(&next), &draft.copy);
        (draft.buffer, changed) = (edited.buffer, edited.changed);
    }
    if rng.chance(30) {
        pack(packer, 0, &draft.buffer, None, &draft.copy);
    }
}

/// One call: an edit or the count.
pub(crate) fn one(packer: &mut Packer, mut draft: Series, rng: &mut Rng) {
    let next = draft.next_edit(rng);
    let call = rng.chance(80).then_some(&next);
    pack(packer, rng.below(9), &draft.buffer, call, &draft.copy);
}

pub(crate) fn pack(
    packer: &mut Packer,
    given: usize,
    buffer: &[u8],
    call: Option<&Edit>,
    copy: &Encoded,
) -> Edited {
    let none = Encoded::default();
    let (kind, edited, stream, pool) = match call {
        None => (0, count(buffer, copy), &none.stream, &none.pool),
        Some(next @ Edit::Add(more)) => {
            (1, edit(given, buffer, next, copy), &more.stream, &more.pool)
        }
        Some(next @ Edit::Remove(name)) => (2, edit(given, buffer, next, copy), name, &none.pool),
    };
    packer.count(edited.number, edited.side);
    packer.byte(kind);
    packer.word(given as u32);
    let numbers = [edited.place, edited.length, edited.changed].map(|number| number as u32);
    for word in [edited.number, edited.side].into_iter().chain(numbers) {
        packer.word(word);
    }
    packer.part(buffer);
    packer.part(stream);
    packer.part(pool);
    packer.record(copy);
    let front = match edited.buffer == buffer {
        true => Vec::new(),
        false => parts_of(&held(&edited.buffer)),
    };
    packer.part(&front);
    edited
}
