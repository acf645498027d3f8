//! The file of `vectors-shelf`: calls of a shelf with their answers. Fixed cases
//! come first, then drawn ones until each number has its share, then the rest.

use std::collections::BTreeMap;

use crate::edits::{held, parts_of};
use crate::generate::edits::{Fault, Series, faulty_series, series};
use crate::generate::encode::Encoded;
use crate::generate::findings::shelves::fixed_calls;
use crate::generate::shelves::{Call, Editor, editor, faulty, filled};
use crate::rng::Rng;
use crate::shelf::{BAD_NAME, LETTERS, NO_PLACE, ROWS, Shelf, Shelved};
use crate::vectors::Packer;

/// How many cases 0, 10, 57 and 58 have at least.
const SHARE: usize = 40;

/// How many cases each refusal of a record has at least, in either call and on
/// either side.
const REFUSALS: usize = 8;

/// How many cases of 8 there are for a copy that is long.
const LONGS: usize = 2;

/// Drawn drafts and copies have up to so many bytes each.
const SMALL: usize = 200;

/// The calls packed so far, by call, number and side.
#[derive(Default)]
struct File {
    packer: Packer,
    counts: BTreeMap<(u8, u32, u32), usize>,
}

/// `cases` calls and more.
pub fn shelves(seed: u64, cases: usize) -> Vec<u8> {
    let mut rng = Rng::new(seed);
    let mut file = File::default();
    for fixed in fixed_calls() {
        file.pack(&fixed.editor, &fixed.call);
    }
    file.refusals(&mut rng);
    while file.forged() < 2 * SHARE {
        let mut editor = filled(rng.between(2, 4), small, &mut rng);
        for _ in 0..rng.between(1, 2) {
            editor.forge(&mut rng);
        }
        let call = editor.next_call(small, &mut rng);
        file.pack(&editor, &call);
    }
    while file.of(BAD_NAME) < SHARE {
        let editor = filled(ROWS, small, &mut rng);
        let name = vec![rng.draw() as u8; *rng.pick(&[0, 1, LETTERS, LETTERS + 1])];
        file.pack(&editor, &Call::Set(name));
    }
    while file.packer.cases < cases || [0, 10].iter().any(|&number| file.of(number) < SHARE) {
        file.several(&mut rng);
    }
    file.packer.bytes
}

/// A small draft and copy, with little room behind the draft.
fn small(rng: &mut Rng) -> Series {
    let sized = |draw: &dyn Fn(&mut Rng) -> Series, rng: &mut Rng| loop {
        let mut draft = draw(rng);
        let front = parts_of(&held(&draft.buffer)).len();
        draft.buffer.truncate(front + 20);
        let copy = draft.copy.stream.len() + draft.copy.pool.len();
        if draft.buffer.len().max(copy) <= SMALL {
            return draft;
        }
    };
    match rng.chance(90) {
        true => sized(&|rng| faulty_series(Fault::None, rng), rng),
        false => sized(&series, rng),
    }
}

impl File {
    fn of(&self, number: u32) -> usize {
        let counts = self.counts.iter();
        let counts = counts.filter(|((_, of, _), _)| *of == number);
        counts.map(|(_, count)| count).sum()
    }

    fn forged(&self) -> usize {
        self.of(NO_PLACE)
    }

    fn has(&self, call: u8, number: u32, side: u32) -> usize {
        let count = self.counts.get(&(call, number, side));
        count.copied().unwrap_or(0)
    }

    /// Every refusal of the draft set, of the held one and of the copy.
    fn refusals(&mut self, rng: &mut Rng) {
        for number in 1..=9 {
            while self.has(0, number, 0).min(self.has(1, number, 0)) < REFUSALS {
                let (editor, call) = faulty(Fault::Draft(number), small, rng);
                self.pack(&editor, &call);
            }
            let share = if number == 8 { LONGS } else { REFUSALS };
            while self.has(1, number, 1) < share {
                let (editor, call) = faulty(Fault::Copy(number), small, rng);
                self.pack(&editor, &call);
            }
        }
    }

    /// A few calls in a row.
    fn several(&mut self, rng: &mut Rng) {
        let mut editor = match rng.chance(30) {
            true => editor(small, rng),
            false => filled(*rng.pick(&[1, 2, 3, ROWS]), small, rng),
        };
        for _ in 0..rng.between(2, 6) {
            let call = editor.next_call(small, rng);
            self.pack(&editor, &call);
            editor.take(&call);
        }
    }

    fn pack(&mut self, editor: &Editor, call: &Call) {
        let answer = editor.answer(call);
        let packer = &mut self.packer;
        let (kind, name, before, after) = match call {
            Call::Set(name) => (0, name, &editor.held, &answer.held),
            Call::Back(name) => (1, name, &editor.draft.buffer, &answer.draft),
        };
        let Shelved { number, side, .. } = answer;
        packer.count(number, side);
        *self.counts.entry((kind, number, side)).or_default() += 1;
        packer.byte(kind);
        let numbers = [answer.place, answer.length, answer.changed].map(|number| number as u32);
        for word in [number, side].into_iter().chain(numbers) {
            packer.word(word);
        }
        packer.part(&bytes_of(&editor.shelf));
        packer.part(&bytes_of(&answer.shelf));
        packer.part(name);
        packer.part(&editor.draft.buffer);
        packer.part(&editor.held);
        match call {
            Call::Set(_) => packer.record(&Encoded::default()),
            Call::Back(_) => packer.record(&editor.draft.copy),
        }
        let mut pairs = before.iter().zip(after);
        let last = pairs.rposition(|(before, after)| before != after);
        packer.part(&after[..last.map_or(0, |last| last + 1)]);
    }
}

/// A shelf as the struct of the calls has it: all names, then all lengths of
/// names, starts and lengths.
pub fn bytes_of(shelf: &Shelf) -> Vec<u8> {
    let mut bytes: Vec<u8> = shelf.iter().flat_map(|row| row.name).collect();
    let columns = [
        shelf.map(|row| row.name_len),
        shelf.map(|row| row.start),
        shelf.map(|row| row.len),
    ];
    for number in columns.concat() {
        bytes.extend((number as u64).to_le_bytes());
    }
    bytes
}
