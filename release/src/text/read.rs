//! From the text form to a record.

use super::fault::Fault;
use super::place::Place;
use super::tokens::{tokens, Token, Word, Wrong};
use super::words::{any_of, Words};
use crate::record::commands::{by_word, Command, COMMANDS};
use crate::record::encode::{Encoder, Full};
use crate::record::parts::Parts;

/// What some editors put at the front of a text.
const BYTE_ORDER_MARK: &[u8] = b"\xEF\xBB\xBF";

/// The record that a text describes.
pub fn assemble(text: &[u8]) -> Result<Parts, Fault> {
    read(text).map(|(parts, _)| parts)
}

/// The lines of a text, without what ends them and without a byte order mark at the front.
pub fn lines(text: &[u8]) -> impl Iterator<Item = &[u8]> {
    let text = text.strip_prefix(BYTE_ORDER_MARK).unwrap_or(text);
    text.split(|byte| *byte == b'\n').map(|line| line.strip_suffix(b"\r").unwrap_or(line))
}

/// The record that a text describes, with the line of each command, counted from 0.
pub fn read(text: &[u8]) -> Result<(Parts, Vec<usize>), Fault> {
    let mut encoder = Encoder::default();
    let mut place = Place::start();
    let mut places = Vec::new();
    let mut last = (0, &b""[..]);
    for (index, line) in lines(text).enumerate() {
        let Some(first) = line.iter().find(|byte| !b" \t".contains(byte)) else { continue };
        last = (index, line);
        if *first == b'#' {
            continue;
        }
        let taken = take_line(line, &mut place, &mut encoder);
        if taken.map_err(|wrong| Fault::of(index, line, wrong))? {
            places.push(index);
        }
    }
    match place.lacks() {
        Some(lacking) => Err(Fault::of(last.0, last.1, Wrong::new(last.1.len(), lacking))),
        None => Ok((encoder.finish(), places)),
    }
}

/// Whether a line has a command, which is then taken.
fn take_line(line: &[u8], place: &mut Place, encoder: &mut Encoder) -> Result<bool, Wrong> {
    let tokens = tokens(line)?;
    let Some((first, rest)) = tokens.split_first() else { return Ok(false) };
    let at_first = |message: &str| Wrong::new(first.at, message);
    let mut words = Words::after(first, rest);
    if first.word == Word::Bare(b"pool".to_vec()) {
        if !place.at_start() {
            return Err(at_first("expected a command, since `pool` lines stand before `head`"));
        }
        // Bytes for the front of the pool; the texts of all commands are looked for in them.
        let bytes = words.any_text("the bytes of the pool")?;
        words.finish()?;
        encoder.lend(bytes).map_err(|full| at_first(no_room(full)))?;
        return Ok(false);
    }
    let command = command(first)?;
    place.step(command.byte).map_err(at_first)?;
    let said = words.command(command)?;
    encoder.push(&said).map_err(|full| at_first(no_room(full)))?;
    Ok(true)
}

fn command(first: &Token) -> Result<&'static Command, Wrong> {
    let known = match &first.word {
        Word::Bare(word) => by_word(word),
        _ => None,
    };
    known.ok_or_else(|| {
        let words: Vec<&str> = COMMANDS.iter().map(|command| command.word).collect();
        let commands = any_of(&words);
        Wrong::new(first.at, format!("expected one of the commands {commands}, found {}", first.word))
    })
}

fn no_room(full: Full) -> &'static str {
    match full {
        Full::Stream => "expected `end` before this command: a stream has at most 32,768 bytes",
        Full::Pool => {
            "expected fewer or shorter texts: with those of this line the pool is over 16,384 bytes"
        }
    }
}
