//! The operands of one command: their refusals, and their values once judged.

use crate::commands::{self, Form};
use crate::model::Side;
use crate::reader::{FLAG, MISSING, OUTSIDE};

/// A part of the pool.
#[derive(Clone, Copy, Debug, PartialEq, Eq)]
pub struct Stretch {
    pub start: usize,
    pub length: usize,
}

/// The operand bytes of one command that are still to be read.
pub struct Operands<'a> {
    pool: &'a str,
    rest: &'a [u8],
}

impl<'a> Operands<'a> {
    pub fn new(bytes: &'a [u8], pool: &'a str) -> Self {
        Operands { pool, rest: bytes }
    }

    /// The refusal that the operands earn: over all of them 4, then 5, then 6.
    pub fn fault(&self, command: u8, forms: &[Form], side: Side) -> Option<u32> {
        let mut at = 0;
        let mut placed = Vec::with_capacity(forms.len());
        for &form in forms {
            placed.push((form, &self.rest[at..at + form.width()]));
            at += form.width();
        }
        let outside = |&(form, bytes): &(Form, &[u8])| form.is_text() && self.outside(form, bytes);
        let missing = |&(form, bytes): &(Form, &[u8])| {
            form == Form::Demanded && side == Side::Current && absent(bytes)
        };
        let flagged = |&(form, bytes): &(Form, &[u8])| form.has_flag() && bytes[0] > 1;
        if placed.iter().any(outside) {
            Some(OUTSIDE)
        } else if placed.iter().any(missing) || self.lacks_constant_text(command, &placed) {
            Some(MISSING)
        } else if placed.iter().any(flagged) {
            Some(FLAG)
        } else {
            None
        }
    }

    /// Whether a text reaches past the pool, or "begins or ends inside a sequence"
    /// (request W-206 of document 02), which an empty one in there does too.
    fn outside(&self, form: Form, bytes: &[u8]) -> bool {
        if form != Form::Text && absent(bytes) {
            return false;
        }
        let Stretch { start, length } = stretch(bytes);
        let whole = |at: usize| self.pool.is_char_boundary(at);
        start + length > self.pool.len() || !whole(start) || !whole(start + length)
    }

    /// Whether this is a constant whose is-text is 1 and whose text is absent.
    fn lacks_constant_text(&self, command: u8, placed: &[(Form, &[u8])]) -> bool {
        command == commands::CONSTANT && placed[1].1[0] == 1 && absent(placed[3].1)
    }

    fn bytes<const N: usize>(&mut self) -> [u8; N] {
        let (front, rest) = self.rest.split_at(N);
        self.rest = rest;
        front.try_into().expect("the front has N bytes")
    }

    /// The next text as a stretch, left to be read.
    pub fn stretch(&self) -> Stretch {
        stretch(&self.rest[..3])
    }

    pub fn text(&mut self) -> String {
        let Stretch { start, length } = stretch(&self.bytes::<3>());
        self.pool[start..start + length].to_string()
    }

    pub fn optional(&mut self) -> Option<String> {
        if absent(&self.rest[..3]) {
            self.bytes::<3>();
            return None;
        }
        Some(self.text())
    }

    pub fn flag(&mut self) -> bool {
        self.bytes::<1>() == [1]
    }

    pub fn word(&mut self) -> u32 {
        u32::from_le_bytes(self.bytes())
    }

    pub fn number(&mut self) -> Option<u32> {
        let present = self.flag();
        let word = self.word();
        present.then_some(word)
    }

    pub fn value(&mut self) -> i64 {
        i64::from_le_bytes(self.bytes())
    }
}

fn absent(bytes: &[u8]) -> bool {
    bytes == [0xFF, 0xFF, 0]
}

fn stretch(bytes: &[u8]) -> Stretch {
    Stretch {
        start: u16::from_le_bytes([bytes[0], bytes[1]]).into(),
        length: bytes[2].into(),
    }
}
