//! From a record to the text form.

use std::collections::HashSet;

use super::alike::{with_points, Alike};
use super::place::Place;
use super::tokens::{quoted, written};
use crate::record::commands::{Operand, Said, Value, BIT_FIELD, CONSTANT, ENUM, FAMILY, HEAD, STRUCT};
use crate::record::decode;
use crate::record::parts::POOL_LIMIT;
use crate::record::room::list_whole;
use crate::record::Problem;
use crate::{Record, Side};

const VAST: u32 = 9;

/// How many characters of the pool a `pool` line shows.
const POOL_LINE: usize = 80;

/// The text form of a record. One that is refused for its sizes alone has one, since all its commands can be
/// read.
pub fn show(record: Record) -> Result<String, Problem> {
    let (answer, _) = list_whole(record, Side::Released);
    if answer.number != 0 && answer.number != VAST {
        return Err(Problem::Refused(answer));
    }
    let commands = decode::commands(record).map_err(|place| Problem::Undecoded { place })?;
    Ok(pool_lines(&commands, record.pool) + &lines(&commands))
}

/// The texts of commands.
pub fn texts(commands: &[Said]) -> impl Iterator<Item = &[u8]> {
    commands.iter().flat_map(|said| (0..said.values.len()).filter_map(|index| said.text(index)))
}

/// A line for each command, indented by what it stands in, with an empty line around every block.
fn lines(commands: &[Said]) -> String {
    let alike = Alike::among(texts(commands));
    let mut text = String::new();
    let mut place = Place::start();
    let mut in_block = false;
    for said in commands {
        // The proved call has judged the places, and a wrong one would only change the indentation.
        let _ = place.step(said.command.byte);
        let depth = place.depth();
        if depth == 0 {
            let opens = matches!(said.command.byte, ENUM | BIT_FIELD | STRUCT | FAMILY);
            if opens || in_block {
                text.push('\n');
            }
            in_block = opens;
        }
        text.push_str(&format!("{}{}{}\n", "    ".repeat(depth), line(said), comment(said, &alike)));
    }
    text
}

/// The code points of the command's texts that look like another text of the record, as a comment.
fn comment(said: &Said, alike: &Alike) -> String {
    let mut told: Vec<String> = Vec::new();
    for text in texts(std::slice::from_ref(said)).filter(|text| alike.other(text).is_some()) {
        let points = with_points(text);
        if !told.contains(&points) {
            told.push(points);
        }
    }
    match told.is_empty() {
        true => String::new(),
        false => format!("  # {}", told.join(", ")),
    }
}

/// The pool itself, where texts that overlap in it would have no room side by side.
fn pool_lines(commands: &[Said], pool: &[u8]) -> String {
    let distinct: HashSet<&[u8]> = texts(commands).collect();
    if distinct.iter().map(|text| text.len()).sum::<usize>() <= POOL_LIMIT {
        return String::new();
    }
    let letters: Vec<char> = String::from_utf8_lossy(pool).chars().collect();
    let lines = letters.chunks(POOL_LINE).map(|line| line.iter().collect::<String>());
    lines.map(|line| format!("pool {}\n", quoted(line.as_bytes()))).collect()
}

/// A command as its line has it, without blanks in front.
pub fn line(said: &Said) -> String {
    format!("{}{}", said.command.word, operands(said, 0))
}

/// The operands of a command from this one on, as its line has them: each with a blank before it.
pub fn operands(said: &Said, from: usize) -> String {
    let mut text = String::new();
    for (index, operand) in said.command.operands.iter().enumerate().skip(from) {
        match (said.command.byte, index) {
            (HEAD, 0) => text.push_str(&release(said)),
            (CONSTANT, 1) => text.push_str(&constant_value(said)),
            (CONSTANT, 2..=3) => {}
            _ => text.push_str(&operand_text(operand, &said.values[index])),
        }
    }
    text
}

/// A release that reads as the keyword is quoted.
fn release(said: &Said) -> String {
    match said.text(0) {
        None => String::new(),
        Some(b"unreleased") => format!(" {}", quoted(b"unreleased")),
        Some(release) => format!(" {}", written(release)),
    }
}

/// The value of a constant as its line has it, with the blank before it.
pub fn constant_value(said: &Said) -> String {
    match (said.flag(1), said.text(3), said.values.get(2)) {
        (true, Some(text), _) => format!(" text={}", written(text)),
        (_, _, Some(Value::Value(value))) => format!(" {value}"),
        _ => String::new(),
    }
}

/// A required operand by its place, any other by its keyword if it is there.
fn operand_text(operand: &Operand, value: &Value) -> String {
    let name = operand.name;
    match value {
        Value::Text(Some(text)) if operand.form.required() => format!(" {}", written(text)),
        Value::Text(Some(text)) => format!(" {name}={}", written(text)),
        Value::Word(number) => format!(" {number}"),
        Value::Value(number) => format!(" {number}"),
        Value::Number(Some(number)) => format!(" {name}={number}"),
        Value::Flag(true) => format!(" {name}"),
        Value::Text(None) | Value::Number(None) | Value::Flag(false) => String::new(),
    }
}
