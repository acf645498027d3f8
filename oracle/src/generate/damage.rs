//! Records with a fault of each refusal.

use super::encode::{Encoded, encode, inside_sequence};
use super::{heavy, make, sequences};
use crate::commands::{self, Form};
use crate::model::{Content, Side};
use crate::reader::{self, POOL_LIMIT, STREAM_LIMIT, read};
use crate::rng::Rng;

/// A record that is refused with this number when read as this side, made from
/// a readable content.
pub fn damaged(content: &Content, number: u32, side: Side, rng: &mut Rng) -> Encoded {
    loop {
        let mut record = prepared(content.clone(), number, side, rng);
        hurt(&mut record, number, rng);
        if rng.chance(25) {
            let other = rng.between(1, 8) as u32;
            hurt(&mut record, other, rng);
        }
        let refusal = read(side, &record.stream, &record.pool).err();
        if refusal.is_some_and(|refusal| refusal.number == number) {
            return record;
        }
    }
}

/// The content as bytes, with what the damage needs to be possible.
fn prepared(mut content: Content, number: u32, side: Side, rng: &mut Rng) -> Encoded {
    match (number, side) {
        (reader::MISSING, Side::Released) => {
            let constant = make::text("c", "text");
            rng.insert(&mut content.items, constant.into());
        }
        (reader::VAST, _) => {
            for _ in 0..rng.between(1, 2) {
                make_vast(&mut content, rng);
            }
        }
        _ => {}
    }
    encode(&content, rng)
}

fn make_vast(content: &mut Content, rng: &mut Rng) {
    match rng.chance(15) {
        true => heavy::load_named(content, u32::MAX, rng),
        false => {
            let fields = heavy::vast(rng);
            heavy::load(content, fields, rng);
        }
    }
}

/// Do the damage of one refusal somewhere in the bytes.
fn hurt(record: &mut Encoded, number: u32, rng: &mut Rng) {
    match number {
        reader::CUT => cut(record, rng),
        reader::UNKNOWN => unknown(record, rng),
        reader::MISPLACED => misplaced(record, rng),
        reader::OUTSIDE => outside(record, rng),
        reader::MISSING => missing(record, rng),
        reader::FLAG => flag(record, rng),
        reader::LETTER => letter(record, rng),
        reader::LONG => long(record, rng),
        _ => {}
    }
}

/// A command of a stream: its byte, its place and its operands.
struct Command {
    byte: u8,
    place: usize,
    forms: &'static [Form],
}

/// The commands of a stream, as far as they can be told.
fn commands_of(stream: &[u8]) -> Vec<Command> {
    let mut found = Vec::new();
    let mut place = 0;
    while let Some(&byte) = stream.get(place) {
        let Some(forms) = commands::operands(byte) else {
            break;
        };
        if stream.len() < place + commands::width(forms) {
            break;
        }
        found.push(Command { byte, place, forms });
        place += commands::width(forms);
    }
    found
}

/// The places of all operands that `wanted` holds of.
fn operand_places(stream: &[u8], wanted: fn(Form) -> bool) -> Vec<usize> {
    let mut places = Vec::new();
    for command in commands_of(stream) {
        let mut at = command.place + 1;
        for &form in command.forms {
            if wanted(form) {
                places.push(at);
            }
            at += form.width();
        }
    }
    places
}

/// The place of a drawn command, or the stream's length.
fn boundary(stream: &[u8], rng: &mut Rng) -> usize {
    let commands = commands_of(stream);
    match commands.is_empty() || rng.chance(10) {
        true => stream.len(),
        false => rng.pick(&commands).place,
    }
}

fn cut(record: &mut Encoded, rng: &mut Rng) {
    let length = match rng.below(4) {
        0 => record.stream.len().saturating_sub(1),
        1 => boundary(&record.stream, rng),
        _ => rng.below(record.stream.len() + 1),
    };
    record.stream.truncate(length);
    if rng.chance(10) {
        record.stream.push(rng.between(0x01, 0x0E) as u8);
    }
}

fn unknown(record: &mut Encoded, rng: &mut Rng) {
    let byte = *rng.pick(&[0x00, 0x10, 0x11, 0x1F, 0x7F, 0x80, 0xFF]);
    let place = boundary(&record.stream, rng);
    if place < record.stream.len() && rng.chance(70) {
        record.stream[place] = byte;
    } else {
        record.stream.insert(place, byte);
    }
    if rng.chance(15) {
        record.stream.truncate(place + 1);
    }
}

fn misplaced(record: &mut Encoded, rng: &mut Rng) {
    let commands = commands_of(&record.stream);
    match rng.below(4) {
        0 => {
            let byte = rng.below(0x12) as u8;
            record.stream.push(byte);
        }
        1 if !commands.is_empty() => {
            let gone = rng.pick(&commands);
            let end = gone.place + commands::width(gone.forms);
            record.stream.drain(gone.place..end);
        }
        _ => {
            let place = boundary(&record.stream, rng);
            let byte = *rng.pick(&[0x01, 0x05, 0x07, 0x0A, 0x0B, 0x0C, 0x0F]);
            insert_blank(&mut record.stream, place, byte);
        }
    }
}

/// Insert a command whose operands are all zero, which is right in each form.
fn insert_blank(stream: &mut Vec<u8>, place: usize, byte: u8) {
    let forms = commands::operands(byte).expect("a command");
    let mut blank = vec![0; commands::width(forms)];
    blank[0] = byte;
    stream.splice(place..place, blank);
}

fn outside(record: &mut Encoded, rng: &mut Rng) {
    let places = operand_places(&record.stream, Form::is_text);
    let pool = record.pool.len();
    if rng.beyond_ascii(50) {
        let (start, length) = cut_text(record, rng);
        return write_text(record, &places, start, length, rng);
    }
    let (start, length) = match rng.below(7) {
        0 => (pool + 1, 0),
        1 => (pool, 1),
        2 => (pool.saturating_sub(1), 2),
        3 => (0xFFFF, 1),
        4 => (0xFFFF, 0),
        5 => (0xFFFE, 0),
        _ => (rng.below(pool + 1), rng.below(256)),
    };
    write_text(record, &places, start, length, rng);
}

/// A text that begins or ends inside a sequence, or is empty there; the pool gets
/// a sequence if it has none.
fn cut_text(record: &mut Encoded, rng: &mut Rng) -> (usize, usize) {
    let inside = |pool: &[u8]| -> Vec<usize> {
        (0..pool.len())
            .filter(|&at| inside_sequence(pool, at))
            .collect()
    };
    if inside(&record.pool).is_empty() {
        record.pool.extend(sequences::character(rng).bytes());
    }
    let at = *rng.pick(&inside(&record.pool));
    match rng.below(4) {
        0 => (at, 0),
        1 => (at, record.pool.len() - at),
        2 => (at, 1 + rng.below(4)),
        _ => {
            let start = at.saturating_sub(1 + rng.below(9));
            (start, at - start)
        }
    }
}

fn missing(record: &mut Encoded, rng: &mut Rng) {
    let mut places = operand_places(&record.stream, |form| form == Form::Demanded);
    for command in commands_of(&record.stream) {
        let is_text = command.byte == commands::CONSTANT && record.stream[command.place + 4] == 1;
        if is_text {
            places.push(command.place + 13);
        }
    }
    write_text(record, &places, 0xFFFF, 0, rng);
}

/// Write a text into a drawn operand.
fn write_text(record: &mut Encoded, places: &[usize], start: usize, length: usize, rng: &mut Rng) {
    if places.is_empty() {
        return;
    }
    let at = *rng.pick(places);
    let start = (start as u16).to_le_bytes();
    let text = [start[0], start[1], length as u8];
    record.stream[at..at + 3].copy_from_slice(&text);
}

fn flag(record: &mut Encoded, rng: &mut Rng) {
    let places = operand_places(&record.stream, Form::has_flag);
    if !places.is_empty() {
        record.stream[*rng.pick(&places)] = *rng.pick(&[2, 3, 0x7F, 0x80, 0xFF]);
    }
}

fn letter(record: &mut Encoded, rng: &mut Rng) {
    if rng.beyond_ascii(70) {
        let bytes = sequences::ill_formed(rng);
        let at = match rng.below(3) {
            0 => record.pool.len(),
            _ => rng.below(record.pool.len() + 1),
        };
        record.pool.splice(at..at, bytes);
        return;
    }
    let byte = *rng.pick(&[0x00, 0x0A, 0x1F, 0x7F, 0x80, 0xFF]);
    match record.pool.is_empty() || rng.chance(20) {
        true => rng.insert(&mut record.pool, byte),
        false => {
            let at = rng.below(record.pool.len());
            record.pool[at] = byte;
        }
    }
}

fn long(record: &mut Encoded, rng: &mut Rng) {
    let more = *rng.pick(&[1, 1, 2, 100]);
    match rng.chance(30) {
        true => record.stream.resize(STREAM_LIMIT + more, commands::END),
        false => record.pool.resize(POOL_LIMIT + more, b' '),
    }
}

/// Change a drawn byte, or now and then put one in or take one out.
pub fn scramble(record: &mut Encoded, rng: &mut Rng) {
    let bytes = match rng.chance(85) {
        true => &mut record.stream,
        false => &mut record.pool,
    };
    let byte = match rng.chance(50) {
        true => rng.below(16) as u8,
        false => rng.draw() as u8,
    };
    if bytes.is_empty() {
        return bytes.push(byte);
    }
    let at = rng.below(bytes.len());
    match rng.below(10) {
        0 => bytes.insert(at, byte),
        1 => {
            bytes.remove(at);
        }
        _ => bytes[at] = byte,
    }
}
