//! The premises that speak of one record by itself.

use std::collections::HashSet;

use super::names::{names, repeated};
use super::{Premise, COLON, KINDS, TWICE, UNRELEASED};
use crate::record::commands::{Said, FAMILY, FIELD, HEAD, STRUCT, VARIANT};
use crate::text::written;

/// The sixteen kinds of document 01.
pub const SIXTEEN: [&str; 16] = [
    "scalar",
    "enum",
    "type_alias",
    "bitfield",
    "inline_array",
    "inline_array2d",
    "cstr_ptr",
    "struct_ptr",
    "struct_array_ptr",
    "struct_ptr_array_ptr",
    "tagged_fam_ptr",
    "simple_fam_ptr",
    "opaque_ptr",
    "fn_ptr",
    "padding",
    "string",
];

/// Where a record is outside these premises: each place, in the order of the premises.
pub fn outside(commands: &[Said]) -> Vec<(&'static Premise, String)> {
    let mut found = Vec::new();
    if commands.iter().any(|said| said.command.byte == HEAD && said.flag(1)) {
        found.push((&UNRELEASED, "its head says unreleased".to_string()));
    }
    found.extend(strange_kinds(commands).into_iter().map(|what| (&KINDS, what)));
    let names = names(commands);
    let mut met = HashSet::new();
    for list in &names.lists {
        for name in repeated(&list.names) {
            found.push((&TWICE, format!("{} stands twice", list.named(name))));
            met.insert(name.to_vec());
        }
    }
    for name in repeated(&names.slots.names) {
        found.push((&TWICE, format!("{} is filled twice", names.slots.named(name))));
    }
    // A layout is told where its own list did not tell it already.
    for name in repeated(&names.layouts.names) {
        if !met.contains(name) && !met.contains(after_colons(name)) {
            found.push((&TWICE, format!("{} stands twice", names.layouts.named(name))));
        }
    }
    for list in &names.lists {
        let colons = list.names.iter().filter(|name| name.contains(&b':'));
        found.extend(colons.map(|name| (&COLON, format!("{} has a colon in its name", list.named(name)))));
    }
    found
}

/// A variant's own name in its layout's.
fn after_colons(name: &[u8]) -> &[u8] {
    let joint = name.windows(2).rposition(|two| two == b"::");
    joint.map_or(name, |at| &name[at + 2..])
}

/// Each field whose kind is none of the sixteen.
fn strange_kinds(commands: &[Said]) -> Vec<String> {
    let mut found = Vec::new();
    for (parent, said) in fields(commands) {
        let kind = said.text(1).unwrap_or_default();
        if !SIXTEEN.iter().any(|word| word.as_bytes() == kind) {
            let (name, kind) = (written(said.text(0).unwrap_or_default()), written(kind));
            let parent = written(&parent);
            found.push(format!("field {name} of {parent} has the kind {kind}, which is none of the sixteen"));
        }
    }
    found
}

/// The fields of a record, each with the whole name of its type.
pub fn fields(commands: &[Said]) -> Vec<(Vec<u8>, &Said)> {
    let (mut family, mut open) = (Vec::new(), Vec::new());
    let mut fields = Vec::new();
    for said in commands {
        let name = said.text(0).unwrap_or_default();
        match said.command.byte {
            STRUCT => open = name.to_vec(),
            FAMILY => {
                family = name.to_vec();
                open = name.to_vec();
            }
            VARIANT => open = [&family[..], b"::", name].concat(),
            FIELD => fields.push((open.clone(), said)),
            _ => {}
        }
    }
    fields
}
