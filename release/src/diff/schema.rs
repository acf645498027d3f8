//! The lists of a record as the definition of the check has them (crates/record/specs/Schema), each item with the index of its command.

use std::collections::HashMap;

use super::Read;
use crate::record::commands::{
    Said, Value, ALIAS, BIT_FIELD, CONSTANT, ENUM, FAMILY, FIELD_KEY, HEAD, MEMBER, STRUCT, UNSTORED_KEY,
    VALUE, VARIANT, VERSION,
};
use crate::record::layout::Layouts;
use crate::record::owners::owners;

/// A text of a record, which may be absent.
pub type Text<'a> = Option<&'a [u8]>;

/// The slots in the order in which the check takes them.
pub const SLOT_ORDER: [&[u8]; 3] = [b"info", b"metadata", b"runtime"];

#[derive(Clone, Copy, Debug, PartialEq, Eq)]
pub enum Held<'a> {
    Integer(i64),
    Text(&'a [u8]),
}

pub struct Constant<'a> {
    pub at: usize,
    pub name: &'a [u8],
    pub value: Held<'a>,
    pub api: bool,
    pub since: Text<'a>,
}

pub struct Enum<'a> {
    pub at: usize,
    pub name: &'a [u8],
    pub api: bool,
    pub since: Text<'a>,
    pub values: Vec<EnumValue<'a>>,
}

pub struct EnumValue<'a> {
    pub at: usize,
    pub name: &'a [u8],
    pub number: i64,
    pub since: Text<'a>,
}

pub struct BitField<'a> {
    pub at: usize,
    pub name: &'a [u8],
    pub since: Text<'a>,
    pub members: Vec<Member<'a>>,
}

pub struct Member<'a> {
    pub at: usize,
    pub name: &'a [u8],
    pub bit: u32,
    /// 1 where none is said.
    pub width: u32,
    pub since: Text<'a>,
}

pub struct Struct<'a> {
    pub name: &'a [u8],
    pub slot: Text<'a>,
    pub version: Text<'a>,
}

pub struct Family<'a> {
    pub at: usize,
    pub name: &'a [u8],
    pub standalone: bool,
    pub variants: Vec<&'a [u8]>,
}

/// A plugin key.
pub struct Key<'a> {
    pub at: usize,
    pub name: &'a [u8],
    pub since: Text<'a>,
}

pub struct Schema<'a> {
    pub release: Text<'a>,
    pub unreleased: bool,
    pub constants: Vec<Constant<'a>>,
    pub enums: Vec<Enum<'a>>,
    pub bit_fields: Vec<BitField<'a>>,
    pub structs: Vec<Struct<'a>>,
    pub families: Vec<Family<'a>>,
    /// Those of the structures' fields, then the unstored ones; no pass looks at the keys of families.
    pub keys: Vec<Key<'a>>,
    pub versions: Vec<(&'a [u8], u32)>,
    /// Whether it describes a layout, as the pass over an unreleased copy has it.
    pub describes: bool,
    pub layouts: &'a Layouts,
    pub owners: HashMap<&'a [u8], &'a [u8]>,
}

impl<'a> Schema<'a> {
    pub fn of(read: &'a Read) -> Schema<'a> {
        let commands = &read.commands[..];
        let with = |byte: u8| {
            let commands = commands.iter().enumerate();
            commands.filter(move |(_, said)| said.command.byte == byte)
        };
        let head = with(HEAD).next().map(|(_, said)| said);
        let unstored = with(UNSTORED_KEY).map(|(at, said)| Key::of(at, said));
        let sections = [CONSTANT, ALIAS, ENUM, BIT_FIELD, STRUCT, FAMILY];
        Schema {
            release: head.and_then(|said| said.text(0)),
            unreleased: head.is_some_and(|said| said.flag(1)),
            constants: with(CONSTANT).map(|(at, said)| Constant::of(at, said)).collect(),
            enums: with(ENUM).map(|(at, said)| Enum::of(at, said, &commands[at + 1..])).collect(),
            bit_fields: with(BIT_FIELD)
                .map(|(at, said)| BitField::of(at, said, &commands[at + 1..]))
                .collect(),
            structs: with(STRUCT).map(|(_, said)| Struct::of(said)).collect(),
            families: with(FAMILY).map(|(at, said)| Family::of(at, said, &commands[at + 1..])).collect(),
            keys: stored_keys(commands).into_iter().chain(unstored).collect(),
            versions: with(VERSION).map(|(_, said)| (name(said), word(said, 1))).collect(),
            describes: commands.iter().any(|said| sections.contains(&said.command.byte)),
            layouts: &read.layouts,
            owners: owners(commands),
        }
    }

    /// The structure that fills a slot: the first with this slot text.
    pub fn root(&self, slot: &[u8]) -> Option<&Struct<'a>> {
        self.structs.iter().find(|one| one.slot == Some(slot))
    }

    /// The first constant of a name, as the check of the generations takes it.
    pub fn constant(&self, name: &[u8]) -> Option<&Constant<'a>> {
        self.constants.iter().find(|constant| constant.name == name)
    }

    /// The constant that holds the generation of the first structure of a name, and its number.
    pub fn generation(&self, root: &[u8]) -> Option<(&'a [u8], u32)> {
        let version = self.structs.iter().find(|one| one.name == root)?.version?;
        match self.constant(version)?.value {
            Held::Integer(number) => Some((version, u32::try_from(number).ok()?)),
            Held::Text(_) => None,
        }
    }
}

/// The plugin keys of the fields of structures.
fn stored_keys(commands: &[Said]) -> Vec<Key<'_>> {
    let mut of_struct = false;
    let mut keys = Vec::new();
    for (at, said) in commands.iter().enumerate() {
        match said.command.byte {
            STRUCT => of_struct = true,
            FAMILY => of_struct = false,
            FIELD_KEY if of_struct => keys.push(Key::of(at, said)),
            _ => {}
        }
    }
    keys
}

fn name(said: &Said) -> &[u8] {
    said.text(0).unwrap_or_default()
}

fn word(said: &Said, index: usize) -> u32 {
    match said.values.get(index) {
        Some(Value::Word(number)) => *number,
        _ => 0,
    }
}

fn integer(said: &Said, index: usize) -> i64 {
    match said.values.get(index) {
        Some(Value::Value(number)) => *number,
        _ => 0,
    }
}

/// The parts of a section, which follow its command, each with its index.
fn parts(at: usize, behind: &[Said], byte: u8) -> impl Iterator<Item = (usize, &Said)> {
    let parts = behind.iter().take_while(move |said| said.command.byte == byte);
    parts.enumerate().map(move |(nth, said)| (at + 1 + nth, said))
}

impl<'a> Constant<'a> {
    fn of(at: usize, said: &'a Said) -> Constant<'a> {
        let value = match said.flag(1) {
            true => Held::Text(said.text(3).unwrap_or_default()),
            false => Held::Integer(integer(said, 2)),
        };
        Constant { at, name: name(said), value, api: said.flag(4), since: said.text(5) }
    }
}

impl<'a> Enum<'a> {
    fn of(at: usize, said: &'a Said, behind: &'a [Said]) -> Enum<'a> {
        let value = |(at, said): (usize, &'a Said)| EnumValue {
            at,
            name: name(said),
            number: integer(said, 1),
            since: said.text(2),
        };
        let values = parts(at, behind, VALUE).map(value).collect();
        Enum { at, name: name(said), api: said.flag(2), since: said.text(3), values }
    }
}

impl<'a> BitField<'a> {
    fn of(at: usize, said: &'a Said, behind: &'a [Said]) -> BitField<'a> {
        let width = |said: &Said| match said.values.get(2) {
            Some(Value::Number(Some(width))) => *width,
            _ => 1,
        };
        let member = |(at, said): (usize, &'a Said)| Member {
            at,
            name: name(said),
            bit: word(said, 1),
            width: width(said),
            since: said.text(3),
        };
        let members = parts(at, behind, MEMBER).map(member).collect();
        BitField { at, name: name(said), since: said.text(2), members }
    }
}

impl<'a> Struct<'a> {
    fn of(said: &'a Said) -> Struct<'a> {
        Struct { name: name(said), slot: said.text(1), version: said.text(2) }
    }
}

impl<'a> Family<'a> {
    fn of(at: usize, said: &'a Said, behind: &'a [Said]) -> Family<'a> {
        let own = behind.iter().take_while(|said| !matches!(said.command.byte, STRUCT | FAMILY));
        let variants = own.filter(|said| said.command.byte == VARIANT).map(name).collect();
        Family { at, name: name(said), standalone: said.flag(5), variants }
    }
}

impl<'a> Key<'a> {
    fn of(at: usize, said: &'a Said) -> Key<'a> {
        Key { at, name: name(said), since: said.text(1) }
    }
}
