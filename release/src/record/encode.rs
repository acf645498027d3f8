//! A record written command by command, with equal texts shared in the pool.

use std::collections::HashMap;

use super::commands::{Said, Value};
use super::parts::{Parts, POOL_LIMIT, STREAM_LIMIT};

/// Which part of a record has no room left.
#[derive(Clone, Copy, Debug, PartialEq, Eq)]
pub enum Full {
    Stream,
    Pool,
}

#[derive(Default)]
pub struct Encoder {
    parts: Parts,
    places: HashMap<Vec<u8>, u16>,
    lent: usize,
    /// The places of the lent bytes, by the bytes that stand there as far as a text goes.
    sorted: Option<Vec<u16>>,
}

const TEXT_LIMIT: usize = 255;

impl Encoder {
    /// Puts bytes at the front of the pool, where texts are then looked for before they are added.
    pub fn lend(&mut self, bytes: &[u8]) -> Result<(), Full> {
        self.append(bytes)?;
        self.lent = self.parts.pool.len();
        self.sorted = None;
        Ok(())
    }

    pub fn push(&mut self, said: &Said) -> Result<(), Full> {
        if self.parts.stream.len() + said.command.width() > STREAM_LIMIT {
            return Err(Full::Stream);
        }
        self.parts.stream.push(said.command.byte);
        for value in &said.values {
            self.value(value)?;
        }
        Ok(())
    }

    pub fn finish(self) -> Parts {
        self.parts
    }

    fn value(&mut self, value: &Value) -> Result<(), Full> {
        match value {
            Value::Text(None) => self.put(&[0xFF, 0xFF, 0]),
            Value::Text(Some(text)) => {
                let [low, high] = self.place(text)?.to_le_bytes();
                // A text has at most 255 bytes: the text form and the decoder give no longer one.
                self.put(&[low, high, text.len() as u8]);
            }
            Value::Flag(flag) => self.put(&[u8::from(*flag)]),
            Value::Number(number) => {
                self.put(&[u8::from(number.is_some())]);
                self.put(&number.unwrap_or(0).to_le_bytes());
            }
            Value::Word(word) => self.put(&word.to_le_bytes()),
            Value::Value(value) => self.put(&value.to_le_bytes()),
        }
        Ok(())
    }

    fn put(&mut self, bytes: &[u8]) {
        self.parts.stream.extend_from_slice(bytes);
    }

    /// Where a text lies in the pool; an empty one lies anywhere.
    fn place(&mut self, text: &[u8]) -> Result<u16, Full> {
        if text.is_empty() {
            return Ok(0);
        }
        if let Some(&place) = self.places.get(text) {
            return Ok(place);
        }
        let place = match self.lent_place(text) {
            Some(place) => place,
            None => self.append(text)?,
        };
        // A place is below the pool's limit and so fits 16 bits.
        self.places.insert(text.to_vec(), place as u16);
        Ok(place as u16)
    }

    /// The first place at which a text stands in the lent bytes.
    fn lent_place(&mut self, text: &[u8]) -> Option<usize> {
        let lent = &self.parts.pool[..self.lent];
        let from = |place: &u16| {
            let rest = &lent[usize::from(*place)..];
            &rest[..rest.len().min(TEXT_LIMIT)]
        };
        let sorted = self.sorted.get_or_insert_with(|| {
            // A place is below the pool's limit and so fits 16 bits.
            let mut places: Vec<u16> = (0..lent.len() as u16).collect();
            places.sort_unstable_by_key(|place| from(place));
            places
        });
        let first = sorted.partition_point(|place| from(place) < text);
        let here = sorted[first..].iter().take_while(|place| from(place).starts_with(text));
        here.min().map(|place| usize::from(*place))
    }

    fn append(&mut self, bytes: &[u8]) -> Result<usize, Full> {
        let place = self.parts.pool.len();
        if place + bytes.len() > POOL_LIMIT {
            return Err(Full::Pool);
        }
        self.parts.pool.extend_from_slice(bytes);
        Ok(place)
    }
}
