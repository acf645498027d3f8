//! An answer of the check, or a record's refusal, as a line for people and as JSON.

use menqachu::explain::hint::hint;
use menqachu::record::commands::{by_byte, Form};
use menqachu::record::decode::commands;
use menqachu::record::numbers::{reason, word, CONTROL, INSIDE};
use menqachu::record::parts::STREAM_LIMIT;
use menqachu::text::letters::shown;
use menqachu::{Answer, Record, Side};

use super::files::Given;
use super::json::Json;
use super::{DAMAGED, DONE, STOPPED};

const OUTSIDE: u32 = 4;
const LETTER: u32 = 7;
const LONG: u32 = 8;

pub struct Told {
    number: u32,
    /// The verdict's message, as the call wrote it.
    message: Option<String>,
    refusal: Option<Refusal>,
}

/// Where a record is refused.
struct Refusal {
    /// None for a record that is read on its own, to be shown.
    side: Option<Side>,
    place: usize,
    in_pool: bool,
    at_end: bool,
    byte: Option<u8>,
    /// The line of the text that the record was made of, if it was.
    line: Option<usize>,
    reason: &'static str,
}

impl Told {
    /// The answer of a check of these records.
    pub fn of_check(answer: &Answer, message: &[u8], current: Record, released: Record) -> Told {
        if (1..=9).contains(&answer.number) {
            let (side, record) =
                if answer.side == 0 { (Side::Current, current) } else { (Side::Released, released) };
            return Told::of_refusal(answer.number, Some(side), answer.place, record);
        }
        let message = (!message.is_empty()).then(|| String::from_utf8_lossy(message).into_owned());
        Told { number: answer.number, message, refusal: None }
    }

    /// The refusal of a record that was read as this side.
    pub fn of_refusal(number: u32, side: Option<Side>, place: usize, record: Record) -> Told {
        let reason = found_reason(number, place, record);
        let refusal = match number {
            LETTER => {
                let byte = record.pool.get(place).copied();
                Refusal { side, place, in_pool: true, at_end: false, byte, line: None, reason }
            }
            LONG => {
                let in_pool = record.stream.len() <= STREAM_LIMIT;
                Refusal { side, place, in_pool, at_end: false, byte: None, line: None, reason }
            }
            _ => {
                let byte = record.stream.get(place).copied();
                Refusal { side, place, in_pool: false, at_end: byte.is_none(), byte, line: None, reason }
            }
        };
        Told { number, message: None, refusal: Some(refusal) }
    }

    /// The refusal of a record that was given and read as this side.
    pub fn of_given(number: u32, side: Option<Side>, place: usize, given: &Given) -> Told {
        Told::of_refusal(number, side, place, given.record()).in_text(given)
    }

    /// With the line of the text that a refused record was made of, if it was.
    pub fn in_text(mut self, given: &Given) -> Told {
        if let Some(refusal) = self.refusal.as_mut().filter(|refusal| !refusal.in_pool) {
            refusal.line = given.line_at(refusal.place);
        }
        self
    }

    /// The side whose record is refused.
    pub fn side(&self) -> Option<Side> {
        self.refusal.as_ref().and_then(|refusal| refusal.side)
    }

    /// A number that speaks of no record.
    pub fn of_number(number: u32) -> Told {
        Told { number, message: None, refusal: None }
    }

    /// The refusal of a record that an edit would make, and that is at no hand.
    pub fn of_result(number: u32, place: usize) -> Told {
        let reason = reason(number).unwrap_or_default();
        let refusal =
            Refusal { side: None, place, in_pool: false, at_end: false, byte: None, line: None, reason };
        Told { number, message: None, refusal: Some(refusal) }
    }

    pub fn number(&self) -> u32 {
        self.number
    }

    /// The message of a verdict.
    pub fn message(&self) -> Option<&str> {
        self.message.as_deref()
    }

    pub fn accepted(&self) -> bool {
        self.number == 0
    }

    pub fn status(&self) -> u8 {
        match self.number {
            0 => DONE,
            1..=9 => DAMAGED,
            _ => STOPPED,
        }
    }

    /// What to do about a verdict on these records.
    pub fn hint(&self, current: Record, released: Record) -> Option<String> {
        let message = self.message.as_deref()?;
        let [current, released] = [current, released].map(commands);
        hint(self.number, message, &current.ok()?, &released.ok()?).map(|hint| hint.words)
    }

    pub fn line(&self) -> String {
        if self.accepted() {
            return "accepted".to_string();
        }
        let number = self.number;
        let word = word(number).unwrap_or("(a number that this command does not know)");
        match (&self.refusal, &self.message) {
            (Some(refusal), _) => {
                format!("{number} {word}: {}: {}", refusal.line(), refusal.reason)
            }
            (None, Some(message)) => format!("{number} {word}: {}", shown(message.as_bytes())),
            (None, None) => format!("{number} {word}"),
        }
    }

    pub fn json(&self) -> Json {
        let refusal = self.refusal.as_ref();
        let text = |text: Option<&str>| Json::or_null(text.map(Json::text));
        let byte = refusal.and_then(|refusal| refusal.byte);
        Json::Object(vec![
            ("accepted", Json::Bool(self.accepted())),
            ("number", Json::Number(self.number.into())),
            ("word", text(word(self.number))),
            ("message", text(self.message.as_deref())),
            ("side", text(refusal.and_then(|refusal| refusal.side).map(side_name))),
            ("part", text(refusal.map(Refusal::part))),
            ("place", Json::or_null(refusal.map(|refusal| Json::Number(refusal.place as u64)))),
            ("byte", Json::or_null(byte.map(|byte| Json::text(format!("{byte:02X}"))))),
            ("command", text(refusal.and_then(Refusal::command))),
        ])
    }
}

impl Refusal {
    fn part(&self) -> &'static str {
        if self.in_pool {
            "pool"
        } else {
            "stream"
        }
    }

    /// The name of the command at the place, if one is there.
    fn command(&self) -> Option<&'static str> {
        let byte = self.byte.filter(|_| !self.in_pool)?;
        by_byte(byte).map(|command| command.name)
    }

    fn line(&self) -> String {
        let at = match (self.byte, self.command()) {
            (Some(byte), Some(name)) => format!(", command {byte:02X} {name}"),
            (Some(byte), None) => format!(", byte {byte:02X}"),
            (None, _) if self.at_end => ", the end of the stream".to_string(),
            (None, _) => String::new(),
        };
        let side = self.side.map_or(String::new(), |side| format!("{} ", side_name(side)));
        let line = self.line.map_or(String::new(), |line| format!(", line {line}"));
        format!("{side}record{line}, place {} of the {}{at}", self.place, self.part())
    }
}

/// Why a record is refused, as far as its bytes tell.
fn found_reason(number: u32, place: usize, record: Record) -> &'static str {
    let control = |byte: &u8| byte.is_ascii_control();
    match number {
        OUTSIDE if !reaches_past(place, record) => INSIDE,
        LETTER if record.pool.get(place).is_some_and(control) => CONTROL,
        _ => reason(number).unwrap_or_default(),
    }
}

/// Whether a text of the command at this place reaches past the pool.
fn reaches_past(place: usize, record: Record) -> bool {
    let Some(command) = record.stream.get(place).and_then(|byte| by_byte(*byte)) else { return true };
    let mut at = place + 1;
    command.operands.iter().any(|operand| {
        let bytes = record.stream.get(at..at + operand.form.width()).unwrap_or_default();
        at += operand.form.width();
        match (operand.form, bytes) {
            (Form::Optional, [0xFF, 0xFF, 0]) => false,
            (Form::Text | Form::Optional, &[low, high, length]) => {
                let start = usize::from(u16::from_le_bytes([low, high]));
                start + usize::from(length) > record.pool.len()
            }
            _ => false,
        }
    })
}

/// An object with one more key.
pub fn with(value: Json, key: &'static str, more: Json) -> Json {
    match value {
        Json::Object(mut pairs) => {
            pairs.push((key, more));
            Json::Object(pairs)
        }
        other => other,
    }
}

fn side_name(side: Side) -> &'static str {
    match side {
        Side::Current => "current",
        Side::Released => "released",
    }
}
