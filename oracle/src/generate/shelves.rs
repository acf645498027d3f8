//! Shelves with their buffers, and calls on them: made by calls alone, or forged.

use super::edits::{Fault, Series, faulty_series};
use crate::edits::{edit, held, parts_of};
use crate::rng::Rng;
use crate::shelf::{LETTERS, ROWS, Row, Shelf, Shelved, back, row_of, set};

/// A call of the shelf with the name that it is given.
#[derive(Clone, Debug, PartialEq, Eq)]
pub enum Call {
    Set(Vec<u8>),
    Back(Vec<u8>),
}

/// Where drafts and copies come from.
pub type Draw = fn(&mut Rng) -> Series;

/// What an editor has: a shelf, the buffer of its drafts, and the draft that it
/// edits with the copy.
#[derive(Clone, Debug, PartialEq, Eq)]
pub struct Editor {
    pub shelf: Shelf,
    pub held: Vec<u8>,
    pub draft: Series,
}

/// More names than rows; some are another's front, some are no text.
const NAMES: [&[u8]; 11] = [
    b"a",
    b"ab",
    b"ab\0",
    b"b",
    b"before the move",
    b"sixteen letters.",
    b"\0",
    b"\xFF\xFE",
    b"tile",
    b"tiles",
    b"z",
];

/// What the buffers are filled with at first.
const FILL: u8 = 0xA5;

/// An empty shelf: a new one, or free rows full of drawn numbers. The draft is
/// one of `draw`.
pub fn editor(draw: Draw, rng: &mut Rng) -> Editor {
    let draft = draw(rng);
    let size = parts_of(&held(&draft.buffer)).len();
    let room = match rng.below(10) {
        0 => rng.below(size + 1),
        1..=3 => size * rng.between(1, 3) + rng.below(40),
        _ => size * rng.between(3, 11) + rng.below(40),
    };
    let mut editor = Editor {
        shelf: Shelf::default(),
        held: vec![FILL; room],
        draft,
    };
    if rng.chance(15) {
        for row in &mut editor.shelf {
            *row = Row {
                name_len: 0,
                ..junk(rng)
            };
        }
    }
    editor
}

/// An editor whose shelf holds up to so many drafts of `draw`, set by calls.
pub fn filled(names: usize, draw: Draw, rng: &mut Rng) -> Editor {
    let mut editor = editor(draw, rng);
    let first = rng.below(NAMES.len());
    for nth in 0..names {
        if rng.chance(70) {
            editor.draft.buffer = draw(rng).buffer;
        }
        let call = Call::Set(NAMES[(first + nth) % NAMES.len()].to_vec());
        editor.make_room(&call, 0);
        editor.take(&call);
    }
    editor
}

/// An editor whose next call meets a record that is refused so: the draft set, the
/// held draft, or the copy.
pub fn faulty(fault: Fault, draw: Draw, rng: &mut Rng) -> (Editor, Call) {
    let mut editor = filled(rng.between(1, 3), draw, rng);
    let name = editor.a_name(100, rng);
    let bad = loop {
        let bad = faulty_series(fault, rng);
        if bad.buffer.len().max(bad.copy.pool.len()) <= 600 || fault == Fault::Copy(8) {
            break bad;
        }
    };
    if let Fault::Copy(_) = fault {
        editor.draft.copy = bad.copy;
        return (editor, Call::Back(name));
    }
    if rng.chance(50) {
        editor.draft.buffer = bad.buffer;
        return (editor, Call::Set(name));
    }
    // The held draft is put out of its place, where the buffer now ends.
    let row = row_of(&editor.shelf, &name);
    if let Some(row) = row {
        editor.shelf[row].start = editor.held.len();
        editor.shelf[row].len = bad.buffer.len();
        editor.held.extend(&bad.buffer);
    }
    (editor, Call::Back(name))
}

impl Editor {
    /// A call on the editor as it is.
    pub fn answer(&self, call: &Call) -> Shelved {
        let Series { buffer, copy, .. } = &self.draft;
        match call {
            Call::Set(name) => set(&self.shelf, name, buffer, &self.held),
            Call::Back(name) => back(&self.shelf, name, buffer, &self.held, copy),
        }
    }

    /// A call made: the editor is what it leaves.
    pub fn take(&mut self, call: &Call) -> Shelved {
        let answer = self.answer(call);
        self.shelf = answer.shelf;
        self.held.clone_from(&answer.held);
        self.draft.buffer.clone_from(&answer.draft);
        answer
    }

    /// A call to make next, with what its user may have done before: another
    /// draft, an edit, buffers of other lengths, a shelf that no call made.
    pub fn next_call(&mut self, draw: Draw, rng: &mut Rng) -> Call {
        match rng.below(10) {
            0..=2 => self.draft.buffer = draw(rng).buffer,
            3 => self.draft = draw(rng),
            4..=6 => self.edit(rng),
            _ => {}
        }
        if rng.chance(4) {
            self.forge(rng);
        }
        let known = rng.between(40, 95);
        let name = self.a_name(known, rng);
        let call = match rng.chance(60) {
            true => Call::Set(name),
            false => Call::Back(name),
        };
        match rng.below(10) {
            0..=2 => self.make_room(&call, rng.below(2)),
            3..=4 => self.make_room(&call, 0),
            _ => {}
        }
        call
    }

    /// A name: in so many of a hundred one that is held, if there is one.
    fn a_name(&self, percent: usize, rng: &mut Rng) -> Vec<u8> {
        let names: Vec<&[u8]> = self.shelf.iter().filter_map(Row::letters).collect();
        if !names.is_empty() && rng.chance(percent) {
            return rng.pick(&names).to_vec();
        }
        match rng.below(20) {
            0 => Vec::new(),
            1 => vec![b'n'; LETTERS + 1],
            2 => vec![0; rng.between(LETTERS, 300)],
            _ => rng.pick(&NAMES).to_vec(),
        }
    }

    /// One of W-210's edits.
    fn edit(&mut self, rng: &mut Rng) {
        let next = self.draft.next_edit(rng);
        self.draft.buffer = edit(0, &self.draft.buffer, &next, &self.draft.copy).buffer;
    }

    /// Gives the buffer that a call writes just the room that the call needs, or
    /// so many bytes less. No held place is cut off.
    pub fn make_room(&mut self, call: &Call, less: usize) {
        match call {
            Call::Set(_) => {
                let mut ample = self.clone();
                ample.held.resize(self.held.len() + 60_000, FILL);
                let after = ample.answer(call);
                if after.number == 0 {
                    let needed = last_end(&after.shelf).saturating_sub(less);
                    self.held.resize(needed.max(last_end(&self.shelf)), FILL);
                }
            }
            Call::Back(name) => {
                let row = row_of(&self.shelf, name).map(|row| self.shelf[row]);
                let place = row.and_then(|row| {
                    let rest = self.held.get(row.start..)?;
                    rest.get(..row.len)
                });
                if let Some(place) = place {
                    let needed = parts_of(&held(place)).len();
                    self.draft.buffer.resize(needed - less, FILL);
                }
            }
        }
    }

    /// A shelf or a buffer that no call made.
    pub fn forge(&mut self, rng: &mut Rng) {
        let holding: Vec<usize> = (0..ROWS).filter(|&row| self.shelf[row].is_held()).collect();
        if holding.is_empty() || rng.chance(15) {
            let row = rng.below(ROWS);
            self.shelf[row] = junk(rng);
            return;
        }
        let one = *rng.pick(&holding);
        let other = *rng.pick(&holding);
        match rng.below(9) {
            0 => self.shelf[one].name_len = *rng.pick(&[0, 15, 16, 17, 1 << 32, usize::MAX]),
            1 => {
                self.shelf[one].name = self.shelf[other].name;
                self.shelf[one].name_len = self.shelf[other].name_len;
            }
            2 => self.displace(one, rng),
            3 | 4 => self.lay_over(one, other, rng),
            5 => {
                let cut = rng.below(self.shelf[one].len.min(40) + 1);
                self.shelf[one].len -= cut;
            }
            6 => self.shelf[one].len = self.shelf[one].len.wrapping_add(rng.below(9)),
            7 => self.part_places(one, rng),
            _ => {
                let Row { start, len, .. } = self.shelf[one];
                let place = self
                    .held
                    .get_mut(start..)
                    .and_then(|rest| rest.get_mut(..len));
                if let Some(place @ [_, ..]) = place {
                    let at = rng.below(place.len());
                    place[at] = *rng.pick(&[0, 1, 2, 0x0F, 0x10, 0x1F, 0x7F, 0xFF, FILL]);
                }
            }
        }
    }

    /// A place at the buffer's end, past it, or with an end that no number has.
    fn displace(&mut self, row: usize, rng: &mut Rng) {
        let room = self.held.len();
        let row = &mut self.shelf[row];
        (row.start, row.len) = match rng.below(8) {
            0 => (room, 0),
            1 => (room + 1, 0),
            2 => (room.saturating_sub(row.len) + 1, row.len),
            3 => (room.saturating_sub(row.len), row.len),
            4 => (usize::MAX, 1),
            5 => (usize::MAX - 3, 4 + rng.below(room + 1)),
            6 => (row.start, usize::MAX - row.start + 1 + rng.below(2)),
            _ => (row.start, usize::MAX),
        };
    }

    /// A place over another, or just not: with one start, inside, a byte in
    /// common, touching, empty.
    fn lay_over(&mut self, row: usize, other: usize, rng: &mut Rng) {
        let Row { start, len, .. } = self.shelf[other];
        let row = &mut self.shelf[row];
        let end = start.wrapping_add(len);
        (row.start, row.len) = match rng.below(8) {
            0 => (start, row.len),
            1 => (start, len),
            2 => (start.wrapping_add(len / 3), len / 3),
            3 => (end.wrapping_sub(1), row.len),
            4 => (end, row.len),
            5 => (start.wrapping_sub(row.len), row.len),
            6 => (start.wrapping_sub(row.len).wrapping_add(1), row.len),
            _ => (start.wrapping_add(len / 2), 0),
        };
    }

    /// Bytes of no place before a place, which moves with all that are behind it.
    fn part_places(&mut self, row: usize, rng: &mut Rng) {
        let at = self.shelf[row].start;
        if at > self.held.len() {
            return;
        }
        let gap = rng.between(1, 30);
        self.held.splice(at..at, std::iter::repeat_n(FILL, gap));
        for row in self.shelf.iter_mut().filter(|row| row.is_held()) {
            if row.start >= at {
                row.start = row.start.saturating_add(gap);
            }
        }
    }
}

/// Where the last of places inside a buffer ends.
fn last_end(shelf: &Shelf) -> usize {
    let ends = shelf.iter().filter(|row| row.is_held());
    ends.map(|row| row.start + row.len).max().unwrap_or(0)
}

/// A row of drawn numbers, held or free.
fn junk(rng: &mut Rng) -> Row {
    let mut name = [0; LETTERS];
    name.fill_with(|| rng.draw() as u8);
    let number = |rng: &mut Rng| match rng.below(4) {
        0 => 0,
        1 => rng.below(300),
        2 => usize::MAX - rng.below(3),
        _ => rng.draw() as usize,
    };
    Row {
        name,
        name_len: *rng.pick(&[0, 0, 1, 16, 17, usize::MAX]),
        start: number(rng),
        len: number(rng),
    }
}
