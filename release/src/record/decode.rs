//! The commands of a record with their texts. Nothing is judged here that the proved calls judge: a record
//! that they refuse is refused by their answer.

use super::commands::{by_byte, Form, Said, Value, END};
use crate::Record;

const ABSENT: [u8; 3] = [0xFF, 0xFF, 0];

/// The commands of a record as far as its end, or the place of the first that cannot be decoded.
pub fn commands(record: Record) -> Result<Vec<Said>, usize> {
    let mut all = Vec::new();
    let mut at = 0;
    loop {
        let said = command_at(record, at).ok_or(at)?;
        at += said.command.width();
        let ends = said.command.byte == END;
        all.push(said);
        if ends {
            return Ok(all);
        }
    }
}

fn command_at(record: Record, at: usize) -> Option<Said> {
    let command = by_byte(*record.stream.get(at)?)?;
    let mut bytes = record.stream.get(at + 1..at + command.width())?;
    let mut values = Vec::with_capacity(command.operands.len());
    for operand in command.operands {
        let (front, rest) = bytes.split_at_checked(operand.form.width())?;
        values.push(value(operand.form, front, record.pool)?);
        bytes = rest;
    }
    Some(Said { command, values })
}

fn value(form: Form, bytes: &[u8], pool: &[u8]) -> Option<Value> {
    Some(match form {
        Form::Text => Value::Text(Some(text(bytes, pool)?)),
        Form::Optional if bytes == ABSENT => Value::Text(None),
        Form::Optional => Value::Text(Some(text(bytes, pool)?)),
        Form::Flag => Value::Flag(flag(bytes)?),
        Form::Number => Value::Number(if flag(bytes)? { Some(word(bytes.get(1..)?)?) } else { None }),
        Form::Word => Value::Word(word(bytes)?),
        Form::Value => Value::Value(i64::from_le_bytes(bytes.try_into().ok()?)),
    })
}

fn text(bytes: &[u8], pool: &[u8]) -> Option<Vec<u8>> {
    let &[low, high, length] = bytes else { return None };
    let start = usize::from(u16::from_le_bytes([low, high]));
    Some(pool.get(start..start + usize::from(length))?.to_vec())
}

fn flag(bytes: &[u8]) -> Option<bool> {
    match bytes.first()? {
        0 => Some(false),
        1 => Some(true),
        _ => None,
    }
}

fn word(bytes: &[u8]) -> Option<u32> {
    Some(u32::from_le_bytes(bytes.try_into().ok()?))
}
