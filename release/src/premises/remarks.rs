//! What a record says that the size rules pass over: scalar words without a size, and enums, aliases and bit fields that
//! nothing declares.

use super::record::fields;
use crate::record::commands::{Said, ALIAS, BIT_FIELD, ENUM, FAMILY};
use crate::text::written;

/// The scalar words that have a size.
const SCALARS: [&[u8]; 4] = [b"u8", b"char", b"u16", b"u32"];

/// Each remark, in the order of the record.
pub fn remarks(commands: &[Said]) -> Vec<String> {
    let declared = |byte: u8| -> Vec<&[u8]> {
        commands.iter().filter(|said| said.command.byte == byte).filter_map(|said| said.text(0)).collect()
    };
    let tables = Tables { enums: declared(ENUM), aliases: declared(ALIAS), bit_fields: declared(BIT_FIELD) };
    let mut found = Vec::new();
    for said in commands {
        let name = written(said.text(0).unwrap_or_default());
        if said.command.byte == ALIAS {
            found.extend(scalar(&format!("alias {name}"), said.text(1)));
        } else if said.command.byte == FAMILY {
            found.extend(scalar(&format!("the length of family {name}"), said.text(4)));
            found.extend(tables.enumeration(&format!("family {name}"), said.text(2)));
        }
    }
    for (parent, said) in fields(commands) {
        let name = format!("field {} of {}", written(said.text(0).unwrap_or_default()), written(&parent));
        found.extend(match said.text(1).unwrap_or_default() {
            b"scalar" => scalar(&name, said.text(2)),
            b"inline_array" | b"inline_array2d" => scalar(&name, said.text(3)),
            b"enum" => tables.enumeration(&name, said.text(2)),
            b"type_alias" => undeclared(&name, said.text(2), &tables.aliases, "an alias", "2 bytes"),
            b"bitfield" => undeclared(&name, said.text(2), &tables.bit_fields, "a bit field", "0 bytes"),
            _ => None,
        });
    }
    found
}

/// The names that a record declares.
struct Tables<'a> {
    enums: Vec<&'a [u8]>,
    aliases: Vec<&'a [u8]>,
    bit_fields: Vec<&'a [u8]>,
}

impl Tables<'_> {
    fn enumeration(&self, name: &str, named: Option<&[u8]>) -> Option<String> {
        undeclared(name, named, &self.enums, "an enum", "1 byte")
    }
}

/// A scalar word without a size; where none is given, it is u8.
fn scalar(name: &str, word: Option<&[u8]>) -> Option<String> {
    let word = word.filter(|word| !SCALARS.contains(word))?;
    let word = written(word);
    Some(format!(
        "{name} has the scalar word {word}, which is none of u8, char, u16 and u32 and counts as 0 bytes"
    ))
}

fn undeclared(
    name: &str,
    named: Option<&[u8]>,
    declared: &[&[u8]],
    sort: &str,
    size: &str,
) -> Option<String> {
    match named {
        Some(named) if declared.contains(&named) => None,
        Some(named) => {
            let named = written(named);
            Some(format!("{name} names {named}, which is declared nowhere as {sort} and counts as {size}"))
        }
        None => Some(format!(
            "{name} names no {} and counts as {size}",
            sort.split_once(' ').map_or(sort, |two| two.1)
        )),
    }
}
