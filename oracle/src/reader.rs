//! The reader of records, written from document 01 and request W-206 of document
//! 02: refusals 1 to 9 with their places.

use crate::commands;
use crate::extent;
use crate::model::{Content, Side};
use crate::operands::{Operands, Stretch};

pub const STREAM_LIMIT: usize = 32_768;
pub const POOL_LIMIT: usize = 16_384;

pub const CUT: u32 = 1;
pub const UNKNOWN: u32 = 2;
pub const MISPLACED: u32 = 3;
pub const OUTSIDE: u32 = 4;
pub const MISSING: u32 = 5;
pub const FLAG: u32 = 6;
pub const LETTER: u32 = 7;
pub const LONG: u32 = 8;
pub const VAST: u32 = 9;

#[derive(Clone, Copy, Debug, PartialEq, Eq)]
pub struct Refusal {
    pub number: u32,
    pub place: usize,
}

/// A readable record.
#[derive(Clone, Debug, PartialEq, Eq)]
pub struct Record {
    pub content: Content,
    /// The place of each 08, 09 and 0A, in stream order.
    pub opened: Vec<usize>,
    /// The name of each 08, in stream order.
    pub struct_names: Vec<Stretch>,
    /// The place of each 0B, in stream order.
    pub fields: Vec<usize>,
}

/// Read a record, whole.
pub fn read(side: Side, stream: &[u8], pool: &[u8]) -> Result<Record, Refusal> {
    judge_lengths(stream, pool)?;
    let pool = judged_pool(pool)?;
    let record = Reader::new(side, stream, pool).commands()?;
    match extent::first_vast(&record) {
        Some(place) => refuse(VAST, place),
        None => Ok(record),
    }
}

fn refuse<T>(number: u32, place: usize) -> Result<T, Refusal> {
    Err(Refusal { number, place })
}

fn judge_lengths(stream: &[u8], pool: &[u8]) -> Result<(), Refusal> {
    if stream.len() > STREAM_LIMIT || pool.len() > POOL_LIMIT {
        return refuse(LONG, 0);
    }
    Ok(())
}

/// The pool as a text, which it is unless number 7 is given: "for the first
/// ill-formed sequence or byte 00 to 1F or 7F hex, at its first byte" (request
/// W-206 of document 02). What is ill-formed is what Rust's own decoder says.
pub fn judged_pool(pool: &[u8]) -> Result<&str, Refusal> {
    let decoded = std::str::from_utf8(pool);
    let well_formed = decoded.map_or_else(|error| error.valid_up_to(), str::len);
    let control = |b: &u8| matches!(b, 0x00..=0x1F | 0x7F);
    match (pool[..well_formed].iter().position(control), decoded) {
        (Some(place), _) => refuse(LETTER, place),
        (None, Ok(text)) => Ok(text),
        (None, Err(_)) => refuse(LETTER, well_formed),
    }
}

/// What a 0B may add to.
#[derive(Clone, Copy, PartialEq, Eq)]
enum Open {
    Nothing,
    Struct,
    Family,
}

struct Reader<'a> {
    side: Side,
    stream: &'a [u8],
    pool: &'a str,
    previous: Option<u8>,
    open: Open,
    record: Record,
}

impl<'a> Reader<'a> {
    fn new(side: Side, stream: &'a [u8], pool: &'a str) -> Self {
        Reader {
            side,
            stream,
            pool,
            previous: None,
            open: Open::Nothing,
            record: Record {
                content: Content::default(),
                opened: Vec::new(),
                struct_names: Vec::new(),
                fields: Vec::new(),
            },
        }
    }

    fn commands(mut self) -> Result<Record, Refusal> {
        let mut at = 0;
        while self.previous != Some(commands::END) {
            let Some(&command) = self.stream.get(at) else {
                return refuse(CUT, at);
            };
            at += self.command(command, at)?;
        }
        if at < self.stream.len() {
            return refuse(MISPLACED, at);
        }
        Ok(self.record)
    }

    /// Judge and take one command, and give its width.
    fn command(&mut self, command: u8, at: usize) -> Result<usize, Refusal> {
        let Some(forms) = commands::operands(command) else {
            return refuse(UNKNOWN, at);
        };
        let width = commands::width(forms);
        let Some(bytes) = self.stream.get(at + 1..at + width) else {
            return refuse(CUT, at);
        };
        if !self.may_stand(command) {
            return refuse(MISPLACED, at);
        }
        let operands = Operands::new(bytes, self.pool);
        if let Some(number) = operands.fault(command, forms, self.side) {
            return refuse(number, at);
        }
        self.take(command, at, operands);
        Ok(width)
    }

    fn may_stand(&self, command: u8) -> bool {
        let Some(previous) = self.previous else {
            return command == commands::HEAD;
        };
        match command {
            commands::HEAD => false,
            commands::VALUE => matches!(previous, commands::ENUM | commands::VALUE),
            commands::MEMBER => matches!(previous, commands::BIT_FIELD | commands::MEMBER),
            commands::VARIANT => self.open == Open::Family,
            commands::FIELD => self.open != Open::Nothing,
            commands::FIELD_KEY => previous == commands::FIELD,
            _ => true,
        }
    }

    fn take(&mut self, command: u8, at: usize, mut operands: Operands) {
        self.previous = Some(command);
        self.open = match command {
            commands::STRUCT => Open::Struct,
            commands::FAMILY => Open::Family,
            commands::VARIANT | commands::FIELD | commands::FIELD_KEY => self.open,
            _ => Open::Nothing,
        };
        let opens = [commands::STRUCT, commands::FAMILY, commands::VARIANT];
        if opens.contains(&command) {
            self.record.opened.push(at);
        }
        if command == commands::STRUCT {
            self.record.struct_names.push(operands.stretch());
        }
        if command == commands::FIELD {
            self.record.fields.push(at);
        }
        self.record.content.take(command, &mut operands);
    }
}
