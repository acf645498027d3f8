//! The bytes of a file or of standard input, looked at before they are taken as a record or as a text.

use std::io::{self, Read};

use menqachu::record::parts::{Left, Parts};
use menqachu::text::sort::{line_and_column, text_up_to, LEAST};

use super::args::Taken;

/// Far more than the text form of any record or a shelf of eight drafts needs.
pub const ROOM: usize = 16 * 1024 * 1024;

/// How many bytes are looked at in one go.
const PIECE: usize = 16 * 1024;

/// Bytes in which a record or a text may be followed by another record.
pub struct Source<R> {
    from: R,
    /// What was looked at; up to `at` it is taken.
    ahead: Vec<u8>,
    at: usize,
    left: Option<Left>,
    /// Whether all was taken as a text.
    spent: bool,
}

/// What was found in a source.
pub enum Found {
    Record(Parts),
    /// A record that begins like a text: the line, the column and the byte that is none of a text.
    Spoiled(Parts, (usize, usize, u8)),
    Text(Vec<u8>),
    /// A text that is longer than any.
    Over,
    /// Nothing, since a text before took all.
    Spent,
}

impl<R: Read> Source<R> {
    pub fn new(from: R) -> Source<R> {
        Source { from, ahead: Vec::new(), at: 0, left: None, spent: false }
    }

    /// The next record or text. A text goes as far as the source.
    pub fn next(&mut self, taken: Taken) -> io::Result<Found> {
        if self.spent {
            return Ok(Found::Spent);
        }
        if let Some(left) = self.left.take() {
            left.skip(self)?;
        }
        match taken {
            Taken::Record => self.record().map(Found::Record),
            Taken::Text => self.rest(),
            Taken::AsTold => self.as_told(),
        }
    }

    /// Looks as far as the first byte that is none of a text.
    fn as_told(&mut self) -> io::Result<Found> {
        self.ahead.drain(..self.at);
        self.at = 0;
        let mut clean = 0;
        loop {
            match text_up_to(&self.ahead, clean) {
                Ok(up_to) => clean = up_to,
                Err(odd) => return self.spoiled(odd),
            }
            if self.ahead.len() > ROOM {
                return Ok(Found::Over);
            }
            if !self.look()? {
                break;
            }
        }
        match self.ahead.len() {
            length if clean < length => self.spoiled(clean),
            length if length < LEAST => self.record().map(Found::Record),
            _ => self.rest(),
        }
    }

    /// Looks at more bytes, if any come.
    fn look(&mut self) -> io::Result<bool> {
        let mut piece = [0; PIECE];
        let count = loop {
            match self.from.read(&mut piece) {
                Err(error) if error.kind() == io::ErrorKind::Interrupted => {}
                read => break read?,
            }
        };
        self.ahead.extend_from_slice(&piece[..count]);
        Ok(count > 0)
    }

    fn record(&mut self) -> io::Result<Parts> {
        let (parts, left) = Parts::begin(self)?;
        self.left = Some(left);
        Ok(parts)
    }

    /// A record whose byte at this place is none of a text.
    fn spoiled(&mut self, odd: usize) -> io::Result<Found> {
        let (line, column) = line_and_column(&self.ahead, odd);
        let spoiled = (line, column, self.ahead[odd]);
        let parts = self.record()?;
        Ok(if odd < LEAST { Found::Record(parts) } else { Found::Spoiled(parts, spoiled) })
    }

    /// All that is left, as a text.
    fn rest(&mut self) -> io::Result<Found> {
        self.spent = true;
        Ok(whole(self)?.map_or(Found::Over, Found::Text))
    }
}

impl<R: Read> Read for Source<R> {
    fn read(&mut self, room: &mut [u8]) -> io::Result<usize> {
        let mut ahead = &self.ahead[self.at..];
        if ahead.is_empty() {
            return self.from.read(room);
        }
        let count = ahead.read(room)?;
        self.at += count;
        Ok(count)
    }
}

/// All bytes, none where they are too many.
pub fn whole(from: impl Read) -> io::Result<Option<Vec<u8>>> {
    let mut bytes = Vec::new();
    from.take(ROOM as u64 + 1).read_to_end(&mut bytes)?;
    Ok((bytes.len() <= ROOM).then_some(bytes))
}
