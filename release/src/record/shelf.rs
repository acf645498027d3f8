//! A shelf in a file: eight bytes that say so, the 320 bytes of the struct of the calls (numbers of eight bytes, little-endian), and the
//! held buffer up to the file's end.

use crate::{shelf_new, shelf_set, Shelf, ShelfAnswer};

const FRONT: &[u8; 8] = b"MQSHELF1";
const NO_ROOM: u32 = 10;
const NO_PLACE: u32 = 58;
const LETTERS: usize = 16;

#[derive(Clone, Debug, PartialEq, Eq)]
pub struct Shelved {
    pub shelf: Shelf,
    pub held: Vec<u8>,
}

/// A held row: its name, unless it states a length that no name has, and its place.
#[derive(Clone, Copy, Debug, PartialEq, Eq)]
pub struct Row<'a> {
    pub name: Option<&'a [u8]>,
    pub start: usize,
    pub len: usize,
}

impl Shelved {
    pub fn empty() -> Shelved {
        Shelved { shelf: shelf_new(), held: Vec::new() }
    }

    /// Reads a file; none where it does not begin as a shelf does.
    pub fn read(bytes: &[u8]) -> Option<Shelved> {
        let rest = bytes.strip_prefix(FRONT)?;
        let (names, rest) = rest.split_first_chunk::<128>()?;
        let (name_lens, rest) = numbers(rest)?;
        let (starts, rest) = numbers(rest)?;
        let (lens, held) = numbers(rest)?;
        Some(Shelved { shelf: Shelf { names: *names, name_lens, starts, lens }, held: held.to_vec() })
    }

    pub fn to_bytes(&self) -> Vec<u8> {
        let Shelf { names, name_lens, starts, lens } = &self.shelf;
        let mut bytes = [FRONT.as_slice(), names].concat();
        for number in [name_lens, starts, lens].into_iter().flatten() {
            bytes.extend_from_slice(&(*number as u64).to_le_bytes());
        }
        bytes.extend_from_slice(&self.held);
        bytes
    }

    /// The held rows.
    pub fn rows(&self) -> impl Iterator<Item = Row<'_>> {
        let Shelf { names, name_lens, starts, lens } = &self.shelf;
        let letters = names.chunks_exact(LETTERS).zip(name_lens);
        let rows = letters.zip(starts.iter().zip(lens)).filter(|((_, name_len), _)| **name_len != 0);
        rows.map(|((name, name_len), (start, len))| Row {
            name: name.get(..*name_len),
            start: *start,
            len: *len,
        })
    }

    /// The first row of a name.
    pub fn row(&self, name: &[u8]) -> Option<Row<'_>> {
        self.rows().find(|row| row.name == Some(name))
    }

    /// The bytes of a place, none where it is outside the buffer.
    pub fn bytes(&self, row: &Row) -> Option<&[u8]> {
        self.held.get(row.start..)?.get(..row.len)
    }

    /// Sets a draft in a buffer with all the room that it needs. Afterwards the buffer ends with the last draft.
    pub fn set(&mut self, name: &[u8], draft: &[u8]) -> ShelfAnswer {
        let mut answer = shelf_set(self.shelf, name, draft, &mut self.held);
        if answer.answer.number == NO_ROOM {
            self.held.resize(answer.answer.len, 0);
            answer = shelf_set(self.shelf, name, draft, &mut self.held);
        }
        self.shelf = answer.shelf;
        if answer.answer.number == 0 {
            let end = self.rows().map(|row| row.start + row.len).max();
            self.held.truncate(end.unwrap_or(0));
        }
        answer
    }

    /// Whether no held place is outside the buffer or over another, as the proved call judges them: a held row is set again with a draft
    /// that can't be read, which changes nothing.
    pub fn is_sound(&self) -> bool {
        let Some(row) = self.shelf.name_lens.iter().position(|name_len| *name_len != 0) else { return true };
        let mut named = self.clone();
        named.shelf.name_lens[row] = LETTERS;
        let name = &self.shelf.names[LETTERS * row..][..LETTERS];
        shelf_set(named.shelf, name, &[], &mut named.held).answer.number != NO_PLACE
    }
}

/// Eight numbers from the front, and what follows them.
fn numbers(bytes: &[u8]) -> Option<([usize; 8], &[u8])> {
    let (front, rest) = bytes.split_first_chunk::<64>()?;
    let mut numbers = [0; 8];
    for (number, bytes) in numbers.iter_mut().zip(front.chunks_exact(8)) {
        *number = u64::from_le_bytes(bytes.try_into().ok()?).try_into().ok()?;
    }
    Some((numbers, rest))
}
