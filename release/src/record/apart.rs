//! The first thing that keeps two records from having the same sections.

use std::collections::HashMap;

use super::commands::{Said, Value, CONSTANT};
use super::reorder::counterparts;
use super::sections::{name, Block};
use crate::text::{constant_value, line, quoted, written};

/// What parts two records, and where: the section, and what is looked at inside it, by their names.
#[derive(Debug, PartialEq, Eq)]
pub struct Apart {
    pub at: Vec<String>,
    pub what: What,
}

/// What the first record has there and what the second has.
#[derive(Debug, PartialEq, Eq)]
pub enum What {
    /// An operand's value.
    Operand { name: &'static str, first: String, second: String },
    /// Two commands of a fixed order, or one and no more.
    Command { first: Option<String>, second: Option<String> },
    /// How often it stands there.
    Count { first: usize, second: usize },
}

impl Apart {
    fn here(what: What) -> Apart {
        Apart { at: Vec::new(), what }
    }

    fn within(mut self, name: String) -> Apart {
        self.at.insert(0, name);
        self
    }
}

/// What parts two records: their heads, else the first section of the first one that the second has no more of, else
/// the first of the second.
pub fn apart(first: &Block, second: &Block) -> Option<Apart> {
    if first.contents == second.contents {
        return None;
    }
    let heads = said_apart(first.opener(), second.opener());
    heads.or_else(|| parts_apart(&first.parts, &second.parts))
}

fn parts_apart(first: &[Block], second: &[Block]) -> Option<Apart> {
    let (there, back) = (counterparts(first, second), counterparts(second, first));
    if let Some(at) = there.iter().position(Option::is_none) {
        let other = left(second, &back).remove(&name(first[at].opener()));
        let inside = other.and_then(|other| block_apart(&first[at], other));
        return Some(inside.unwrap_or_else(|| alone(&first[at], first, second)));
    }
    let at = back.iter().position(Option::is_none)?;
    Some(alone(&second[at], first, second))
}

/// The first of each name among the blocks without a counterpart.
fn left<'a>(blocks: &'a [Block<'a>], counterparts: &[Option<usize>]) -> HashMap<String, &'a Block<'a>> {
    let mut left = HashMap::new();
    for (block, found) in blocks.iter().zip(counterparts) {
        if found.is_none() {
            left.entry(name(block.opener())).or_insert(block);
        }
    }
    left
}

/// How often a block stands in both, which is what is said of it if no other of its name is left.
fn alone(block: &Block, first: &[Block], second: &[Block]) -> Apart {
    let count = |blocks: &[Block]| blocks.iter().filter(|other| other.contents == block.contents).count();
    Apart::here(What::Count { first: count(first), second: count(second) }).within(name(block.opener()))
}

/// What parts two blocks of one name.
fn block_apart(first: &Block, second: &Block) -> Option<Apart> {
    let inside = || {
        let fixed = fixed_apart(&first.fixed[1..], &second.fixed[1..]);
        let inside = fixed.or_else(|| parts_apart(&first.parts, &second.parts))?;
        Some(inside.within(name(first.opener())))
    };
    said_apart(first.opener(), second.opener()).or_else(inside)
}

/// What parts the fields and keys of two blocks, one after the other.
fn fixed_apart(first: &[Said], second: &[Said]) -> Option<Apart> {
    let same = first.iter().zip(second).take_while(|(one, other)| line(one) == line(other)).count();
    match (first.get(same), second.get(same)) {
        (None, None) => None,
        (Some(one), Some(other)) if name(one) == name(other) => said_apart(one, other),
        (one, other) => {
            let (first, second) = (one.map(name), other.map(name));
            Some(Apart::here(What::Command { first, second }))
        }
    }
}

/// The first operand in which two commands of one sort and name differ.
fn said_apart(one: &Said, other: &Said) -> Option<Apart> {
    let differs = |index: usize| match (one.command.byte, index) {
        // One of the three operands that are a constant's value counts, and its line has that one.
        (CONSTANT, 1) => constant_value(one) != constant_value(other),
        (CONSTANT, 2..=3) => false,
        _ => one.values[index] != other.values[index],
    };
    let index = (0..one.values.len()).find(|index| differs(*index))?;
    let (name, [first, second]) = match (one.command.byte, index) {
        (CONSTANT, 1) => ("value", [one, other].map(|said| constant_value(said).trim_start().to_string())),
        _ => (one.command.operands[index].name, [one, other].map(|said| shown(&said.values[index]))),
    };
    let what = What::Operand { name, first, second };
    Some(Apart::here(what).within(self::name(one)))
}

fn shown(value: &Value) -> String {
    match value {
        Value::Text(None) | Value::Number(None) => "absent".to_string(),
        Value::Text(Some(text)) if text == b"absent" => quoted(text),
        Value::Text(Some(text)) => written(text),
        Value::Flag(true) => "set".to_string(),
        Value::Flag(false) => "not set".to_string(),
        Value::Number(Some(number)) | Value::Word(number) => number.to_string(),
        Value::Value(value) => value.to_string(),
    }
}
