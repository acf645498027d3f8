//! The answers of the calls of document 01, from the Rust's own functions.

use crate::json;
use crate::layout::{Layout, compare};
use crate::model::{Content, Side, Struct};
use crate::operands::Stretch;
use crate::reader::{Record, Refusal, read};
use crate::schema::{SLOT_INFO, SLOT_METADATA, SLOT_RUNTIME};
use crate::verdicts;

pub const NO_ROOM: u32 = 10;

/// The room for text that the check and list programs lend.
pub const ROOM: usize = 65_536;

/// The order in which ownership takes the slots.
const ROOTS: [&str; 3] = [SLOT_METADATA, SLOT_RUNTIME, SLOT_INFO];

/// The answer of a check or a list, with the text it writes.
#[derive(Clone, Debug, Default, PartialEq, Eq)]
pub struct Answer {
    pub number: u32,
    pub side: u32,
    pub place: u32,
    pub length: u32,
    pub text: String,
}

/// The answer of the owner call.
#[derive(Clone, Copy, Debug, PartialEq, Eq)]
pub enum Owner {
    None,
    Named(Stretch),
    Refused(Refusal),
}

impl Owner {
    /// The answer as three numbers: 0 for none, 1 with start and length, 2 with
    /// the refusal's number and place.
    pub fn numbers(self) -> (u8, u32, u32) {
        match self {
            Owner::None => (0, 0, 0),
            Owner::Named(name) => (1, as_u32(name.start), as_u32(name.length)),
            Owner::Refused(refusal) => (2, refusal.number, as_u32(refusal.place)),
        }
    }
}

/// Check a current record against a released one, with `room` bytes for text.
pub fn check(
    current_stream: &[u8],
    current_pool: &[u8],
    released_stream: &[u8],
    released_pool: &[u8],
    room: usize,
) -> Answer {
    let current = match read(Side::Current, current_stream, current_pool) {
        Ok(record) => record,
        Err(refusal) => return Answer::refused(refusal, Side::Current),
    };
    match read(Side::Released, released_stream, released_pool) {
        Ok(released) => verdict(&current.content, &released.content).within(room),
        Err(refusal) => Answer::refused(refusal, Side::Released),
    }
}

/// List a record's layouts, with `room` bytes for the list.
pub fn list(stream: &[u8], pool: &[u8], side: Side, room: usize) -> Answer {
    match read(side, stream, pool) {
        Ok(record) => Answer::written(0, layout_lines(&record.content, side)).within(room),
        Err(refusal) => Answer::refused(refusal, side),
    }
}

/// The owner of a name in a current record.
pub fn owner(stream: &[u8], pool: &[u8], name: &[u8]) -> Owner {
    match read(Side::Current, stream, pool) {
        Ok(record) => owner_in(&record, name),
        Err(refusal) => Owner::Refused(refusal),
    }
}

impl Answer {
    pub(crate) fn refused(refusal: Refusal, side: Side) -> Self {
        Answer {
            number: refusal.number,
            side: side.number(),
            place: as_u32(refusal.place),
            ..Answer::default()
        }
    }

    fn written(number: u32, text: String) -> Self {
        Answer {
            number,
            length: as_u32(text.len()),
            text,
            ..Answer::default()
        }
    }

    /// This answer, or 10 where its text has no room.
    pub fn within(self, room: usize) -> Self {
        match self.text.len() <= room {
            true => self,
            false => Answer {
                number: NO_ROOM,
                length: self.length,
                ..Answer::default()
            },
        }
    }
}

pub(crate) fn as_u32(n: usize) -> u32 {
    n.try_into().expect("places and lengths have 32 bits")
}

/// What `compare` says of two readable records, with all the room it needs.
pub fn verdict(current: &Content, released: &Content) -> Answer {
    match compare(&json::schema(current), &json::released(released)) {
        Ok(()) => Answer::default(),
        Err(error) => {
            let text = error.to_string();
            let number = verdicts::number_of(&text);
            let text = match number {
                verdicts::UNRAISED => unwrapped(text),
                _ => text,
            };
            Answer::written(number, text)
        }
    }
}

/// The one text that is not the Rust's: 43 at generation 4,294,967,295, where
/// its sum wraps to 0.
fn unwrapped(text: String) -> String {
    const END: &str =
        ", and add a [[versions]] entry saying which release that generation ships in";
    match text.strip_suffix(&format!(" to 0{END}")) {
        Some(front) => format!("{front} to 4294967296{END}"),
        None => text,
    }
}

fn layout_lines(content: &Content, side: Side) -> String {
    let layout = match side {
        Side::Current => Layout::of_schema(&json::schema(content)),
        Side::Released => Layout::of_released(&json::released(content)),
    };
    let mut lines = String::new();
    for (name, layout) in &layout.types {
        for field in &layout.fields {
            lines += &format!(
                "{name}.{} {} {} {}\n",
                field.name, field.offset, field.size, field.described
            );
        }
    }
    lines
}

fn owner_in(record: &Record, name: &[u8]) -> Owner {
    let schema = json::schema(&record.content);
    let owners = schema.ownership();
    let root = std::str::from_utf8(name).ok().and_then(|n| owners.get(n));
    match root {
        Some(root) => Owner::Named(root_name(record, root)),
        None => Owner::None,
    }
}

/// The name that the 08 of the first root of this name gives.
fn root_name(record: &Record, name: &str) -> Stretch {
    let structs: Vec<&Struct> = record.content.structs().collect();
    let filling = |slot: &&str| {
        let fills = |s: &&Struct| s.slot.as_deref() == Some(*slot);
        structs.iter().position(fills)
    };
    let mut roots = ROOTS.iter().filter_map(filling);
    let root = roots.find(|&at| structs[at].name == name);
    record.struct_names[root.expect("an owner fills a slot")]
}
