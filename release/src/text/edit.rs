//! A text changed by whole lines, so that all its other lines stay as they are, comments too.

use std::ops::Range;

use super::read::read;
use super::Fault;
use crate::record::commands::{Said, FAMILY, FIELD, FIELD_KEY, STRUCT, VARIANT};
use crate::record::decode::commands;

/// A text with the type of another text in front of its end. That one has a head, one type with its parts, and an end.
pub fn added(text: &[u8], addition: &[u8]) -> Result<Vec<u8>, Fault> {
    let (_, places) = read(text)?;
    let (_, more) = read(addition)?;
    let [_, first, .., _] = more[..] else { return Ok(text.to_vec()) };
    let block = raw_lines(addition).skip(first).take(more[more.len() - 2] + 1 - first);
    let (front, back) = split_at_line(text, places.last().copied().unwrap_or_default());
    let ending = if front.ends_with(b"\r\n") { "\r\n" } else { "\n" };
    let mut edited = front.to_vec();
    if !blank(raw_lines(front).last().unwrap_or_default()) {
        edited.extend_from_slice(ending.as_bytes());
    }
    for line in block.chain([&b""[..]]) {
        edited.extend_from_slice(line.trim_ascii_end());
        edited.extend_from_slice(ending.as_bytes());
    }
    edited.extend_from_slice(back);
    Ok(edited)
}

/// A text without the first structure or family of a name; as it is, where there is none.
pub fn removed(text: &[u8], name: &[u8]) -> Result<Vec<u8>, Fault> {
    let (parts, places) = read(text)?;
    let all = commands(parts.record()).unwrap_or_default();
    let Some(block) = block_of(&all, name) else { return Ok(text.to_vec()) };
    let (front, rest) = split_at_line(text, places[block.start]);
    let (_, mut back) = split_at_line(rest, places[block.end - 1] + 1 - places[block.start]);
    let next = raw_lines(back).next().unwrap_or_default();
    if blank(next) && raw_lines(front).last().is_none_or(blank) {
        back = &back[next.len()..];
    }
    Ok([front, back].concat())
}

/// The commands of the first structure or family of a name.
fn block_of(all: &[Said], name: &[u8]) -> Option<Range<usize>> {
    let named = |said: &Said| matches!(said.command.byte, STRUCT | FAMILY) && said.text(0) == Some(name);
    let start = all.iter().position(named)?;
    let part = |said: &&Said| matches!(said.command.byte, FIELD | FIELD_KEY | VARIANT);
    Some(start..start + 1 + all[start + 1..].iter().take_while(part).count())
}

/// The lines of a text with what ends them.
fn raw_lines(text: &[u8]) -> impl Iterator<Item = &[u8]> {
    text.split_inclusive(|byte| *byte == b'\n')
}

/// What stands before the line of an index, and the rest.
fn split_at_line(text: &[u8], index: usize) -> (&[u8], &[u8]) {
    text.split_at(raw_lines(text).take(index).map(<[u8]>::len).sum())
}

fn blank(line: &[u8]) -> bool {
    line.trim_ascii().is_empty()
}
