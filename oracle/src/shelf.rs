//! Drafts under names, written from document 02's W-211: eight rows of a name
//! and a place each, and the buffer in which the drafts lie.

use crate::edits::{changed, held, parts_of};
use crate::generate::encode::Encoded;
use crate::model::Side;
use crate::reader::{Record, Refusal, read};

pub const BAD_NAME: u32 = 57;
pub const NO_PLACE: u32 = 58;
const NO_ROOM: u32 = 10;

/// "Up to eight names of 1 to 16 bytes".
pub const ROWS: usize = 8;
pub const LETTERS: usize = 16;

/// A name and the place of its draft. A row whose name has no length is free,
/// and what else it has is of no matter.
#[derive(Clone, Copy, Debug, Default, PartialEq, Eq)]
pub struct Row {
    pub name: [u8; LETTERS],
    pub name_len: usize,
    pub start: usize,
    pub len: usize,
}

impl Row {
    /// A row of this name, which has at most 16 bytes.
    pub fn new(name: &[u8], start: usize, len: usize) -> Row {
        let mut row = Row {
            name_len: name.len(),
            start,
            len,
            ..Row::default()
        };
        row.name[..name.len()].copy_from_slice(name);
        row
    }

    pub fn is_held(&self) -> bool {
        self.name_len != 0
    }

    /// Its name; none for a free row, and none for a length that no name has.
    pub fn letters(&self) -> Option<&[u8]> {
        let named = (1..=LETTERS).contains(&self.name_len);
        named.then(|| &self.name[..self.name_len])
    }

    /// Where its place ends, if that is inside a buffer of this length.
    fn end_in(&self, room: usize) -> Option<usize> {
        self.start.checked_add(self.len).filter(|end| *end <= room)
    }
}

/// The names and places, which go in and come back by value.
pub type Shelf = [Row; ROWS];

/// What a call of the shelf answers, with the shelf and both buffers afterwards.
#[derive(Clone, Debug, PartialEq, Eq)]
pub struct Shelved {
    pub number: u32,
    pub side: u32,
    pub place: usize,
    pub length: usize,
    pub changed: usize,
    pub shelf: Shelf,
    pub draft: Vec<u8>,
    pub held: Vec<u8>,
}

/// A draft left under a name.
pub fn set(shelf: &Shelf, name: &[u8], draft: &[u8], buffer: &[u8]) -> Shelved {
    let state = State {
        shelf,
        draft,
        buffer,
    };
    state.set(name).unwrap_or_else(|refused| *refused)
}

/// The draft of a name taken from its place, with its count found afresh.
pub fn back(shelf: &Shelf, name: &[u8], draft: &[u8], buffer: &[u8], copy: &Encoded) -> Shelved {
    let state = State {
        shelf,
        draft,
        buffer,
    };
    state.back(name, copy).unwrap_or_else(|refused| *refused)
}

/// What a refused call leaves as it was.
struct State<'a> {
    shelf: &'a Shelf,
    draft: &'a [u8],
    buffer: &'a [u8],
}

type Refused = Box<Shelved>;

impl State<'_> {
    fn answer(&self, number: u32, length: usize) -> Shelved {
        Shelved {
            number,
            side: 0,
            place: 0,
            length,
            changed: 0,
            shelf: *self.shelf,
            draft: self.draft.to_vec(),
            held: self.buffer.to_vec(),
        }
    }

    fn refused(&self, number: u32, length: usize) -> Refused {
        Box::new(self.answer(number, length))
    }

    /// A record, or its refusal.
    fn read(&self, record: &Encoded, side: Side) -> Result<Record, Refused> {
        let refuse = |refusal: Refusal| {
            Box::new(Shelved {
                side: side.number(),
                place: refusal.place,
                ..self.answer(refusal.number, 0)
            })
        };
        read(side, &record.stream, &record.pool).map_err(refuse)
    }

    fn set(&self, name: &[u8]) -> Result<Shelved, Refused> {
        let free = || self.shelf.iter().position(|row| !row.is_held());
        let row = row_of(self.shelf, name).or_else(free);
        let row = row.filter(|_| (1..=LETTERS).contains(&name.len()));
        let row = row.ok_or_else(|| self.refused(BAD_NAME, 0))?;
        self.judge_places()?;
        let draft = held(self.draft);
        self.read(&draft, Side::Current)?;
        let parts = parts_of(&draft);
        let mut others = *self.shelf;
        others[row] = Row::default();
        let mut front = close_up(&mut others, self.buffer);
        others[row] = Row::new(name, front.len(), parts.len());
        front.extend(parts);
        if front.len() > self.buffer.len() {
            return Err(self.refused(NO_ROOM, front.len()));
        }
        let mut done = self.answer(0, 0);
        done.shelf = others;
        done.held[..front.len()].copy_from_slice(&front);
        Ok(done)
    }

    fn back(&self, name: &[u8], copy: &Encoded) -> Result<Shelved, Refused> {
        let row = row_of(self.shelf, name).ok_or_else(|| self.refused(NO_PLACE, 0))?;
        self.judge_places()?;
        let Row { start, len, .. } = self.shelf[row];
        let draft = held(&self.buffer[start..start + len]);
        let current = self.read(&draft, Side::Current)?;
        let released = self.read(copy, Side::Released)?;
        let parts = parts_of(&draft);
        if parts.len() > self.draft.len() {
            return Err(self.refused(NO_ROOM, parts.len()));
        }
        let mut done = self.answer(0, 0);
        done.changed = changed(&current.content, &released.content);
        done.draft[..parts.len()].copy_from_slice(&parts);
        Ok(done)
    }

    /// 58 for a held place outside the buffer or over another.
    fn judge_places(&self) -> Result<(), Refused> {
        let mut covered = vec![false; self.buffer.len()];
        for row in self.shelf.iter().filter(|row| row.is_held()) {
            let end = row.end_in(covered.len());
            let place = end.map(|end| &mut covered[row.start..end]);
            match place {
                Some(place) if !place.contains(&true) => place.fill(true),
                _ => return Err(self.refused(NO_PLACE, 0)),
            }
        }
        Ok(())
    }
}

/// The first row that holds this name.
pub fn row_of(shelf: &Shelf, name: &[u8]) -> Option<usize> {
    shelf.iter().position(|row| row.letters() == Some(name))
}

/// The bytes of all held places in the order of the buffer; each start becomes
/// the number of such bytes before it.
///
/// Document 02 asks only that the drafts have the room that their sizes need.
/// Decisions of the project: no draft passes another, the new one lies behind
/// all others, a name keeps its row or takes the first free one, a free row's
/// start moves like the others, and bytes behind the drafts stay.
fn close_up(shelf: &mut Shelf, buffer: &[u8]) -> Vec<u8> {
    let mut covered = vec![false; buffer.len()];
    for row in shelf.iter().filter(|row| row.is_held()) {
        covered[row.start..row.start + row.len].fill(true);
    }
    for row in shelf {
        let before = &covered[..row.start.min(covered.len())];
        row.start = before.iter().filter(|covered| **covered).count();
    }
    let kept = buffer.iter().zip(&covered).filter(|(_, covered)| **covered);
    kept.map(|(byte, _)| *byte).collect()
}
