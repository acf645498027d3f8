//! A record cut into its head, its sections and its end. Sections are document 02's (W-214): a constant, an alias,
//! an enum with its values, a bit field with its members, a structure, a family, an unstored key or a version
//! entry, each with all that belongs to it.

use super::commands::{Said, Value, END, FIELD, FIELD_KEY, HEAD, MEMBER, VALUE, VARIANT, VERSION};
use super::{decode, room, Problem};
use crate::text::{line, written};
use crate::{Record, Side};

/// Commands in a fixed order, and parts behind them that may stand in any: a record is its head with its sections,
/// a section may have values, members or variants, and those have no parts.
pub struct Block<'a> {
    pub fixed: &'a [Said],
    pub parts: Vec<Block<'a>>,
    /// What it says in its text form, with its parts sorted: equal for blocks that differ in the order of parts alone.
    pub contents: String,
    /// Its bytes in the stream, with its parts sorted likewise.
    pub bytes: Vec<u8>,
}

/// The commands of a record that can be read as a released one, which asks for the fewest texts.
pub fn readable(record: Record) -> Result<Vec<Said>, Problem> {
    let (answer, _) = room::list_whole(record, Side::Released);
    if answer.number != 0 {
        return Err(Problem::Refused(answer));
    }
    decode::commands(record).map_err(|place| Problem::Undecoded { place })
}

/// A readable record as one block; these are its commands, of which the end is left out.
pub fn cut<'a>(commands: &'a [Said], stream: &[u8]) -> Block<'a> {
    let inside = &commands[..commands.len() - 1];
    block(inside, stream, &[begins_section, begins_part])
}

/// Whether a command begins a part of the block that is being cut.
type Begins = fn(u8) -> bool;

fn begins_part(byte: u8) -> bool {
    matches!(byte, VALUE | MEMBER | VARIANT)
}

/// All commands but the head, those inside a section and the end.
fn begins_section(byte: u8) -> bool {
    !matches!(byte, HEAD | VALUE | MEMBER | VARIANT | FIELD | FIELD_KEY | END)
}

/// The block of these commands, which the stream begins with, cut by the first test, its parts by the others.
fn block<'a>(said: &'a [Said], stream: &[u8], tests: &[Begins]) -> Block<'a> {
    let begins = |said: &Said| tests.first().is_some_and(|test| test(said.command.byte));
    let first = said.iter().position(begins).unwrap_or(said.len());
    let (fixed, rest) = said.split_at(first);
    let (own, mut stream) = stream.split_at(width(fixed));
    let mut parts = Vec::new();
    for run in rest.chunk_by(|_, next| !begins(next)) {
        let (bytes, after) = stream.split_at(width(run));
        parts.push(block(run, bytes, tests.get(1..).unwrap_or_default()));
        stream = after;
    }
    let mut contents: Vec<&str> = parts.iter().map(|part| part.contents.as_str()).collect();
    contents.sort_unstable();
    let mut bytes: Vec<&[u8]> = parts.iter().map(|part| &part.bytes[..]).collect();
    bytes.sort_unstable();
    let lines: String = fixed.iter().map(|said| line(said) + "\n").collect();
    Block { fixed, contents: lines + &contents.concat(), bytes: [own, &bytes.concat()].concat(), parts }
}

/// The bytes that these commands take in a stream.
fn width(said: &[Said]) -> usize {
    said.iter().map(|said| said.command.width()).sum()
}

impl Block<'_> {
    /// The command that it begins with.
    pub fn opener(&self) -> &Said {
        &self.fixed[0]
    }
}

/// A command's word and name as the text form writes them; a version entry's number is part of its name.
pub fn name(said: &Said) -> String {
    let word = said.command.word;
    match (said.text(0), said.values.get(1)) {
        (Some(name), Some(Value::Word(number))) if said.command.byte == VERSION => {
            format!("{word} {} {number}", written(name))
        }
        (Some(name), _) if said.command.byte != HEAD => format!("{word} {}", written(name)),
        _ => word.to_string(),
    }
}
