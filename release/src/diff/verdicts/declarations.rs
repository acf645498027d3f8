//! Verdicts 20 to 30: constants, enums with their values, and bit fields with their members.

use std::collections::{BTreeMap, HashSet};

use super::{first_of, last_of, About, Found};
use crate::diff::schema::{BitField, Enum, Held, Schema, SLOT_ORDER};

const CONSTANT_GONE: u32 = 20;
const CONSTANT_CHANGED: u32 = 21;
const ENUM_GONE: u32 = 22;
const RENUMBERED: u32 = 23;
const RENAMED: u32 = 24;
const VALUE_GONE: u32 = 25;
const BIT_FIELD_GONE: u32 = 26;
const MEMBER_RENAMED: u32 = 27;
const MEMBER_GONE: u32 = 28;
const BIT_MOVED: u32 = 29;
const WIDTH_CHANGED: u32 = 30;

/// The constants that hold the generations, which are meant to change.
fn generations<'a>(schema: &Schema<'a>) -> HashSet<&'a [u8]> {
    let roots = SLOT_ORDER.iter().filter_map(|slot| schema.root(slot));
    roots.filter_map(|root| schema.generation(root.name)).map(|(constant, _)| constant).collect()
}

/// A value as the check compares it: integers in decimal.
fn text(value: Held) -> Vec<u8> {
    match value {
        Held::Integer(number) => number.to_string().into_bytes(),
        Held::Text(text) => text.to_vec(),
    }
}

/// The released constants in byte order, of two of one name the later, against the last current one.
pub fn constants<'a>(is: &Schema<'a>, was: &Schema<'a>, found: &mut Found<'a>) {
    let meant = generations(is);
    let now = last_of(&is.constants, |one| one.name);
    let then: BTreeMap<&[u8], _> = was.constants.iter().map(|one| (one.name, one)).collect();
    for (name, old) in then {
        let about = About::Released(old.at);
        match now.get(name) {
            None => found.add(CONSTANT_GONE, about),
            Some(new) => {
                let kept = meant.contains(name) || text(new.value) == text(old.value);
                found.unless(kept, CONSTANT_CHANGED, about);
            }
        }
    }
}

/// The released enums with values, each against the first current one of its name.
pub fn enums<'a>(is: &Schema<'a>, was: &Schema<'a>, found: &mut Found<'a>) {
    let now = first_of(&is.enums, |one| one.name);
    for old in was.enums.iter().filter(|one| !one.values.is_empty()) {
        match now.get(old.name) {
            None => found.add(ENUM_GONE, About::Released(old.at)),
            Some(new) => values(new, old, found),
        }
    }
}

fn values<'a>(is: &Enum<'a>, was: &Enum<'a>, found: &mut Found<'a>) {
    let named = first_of(&is.values, |value| value.name);
    let numbered = first_of(&is.values, |value| value.number);
    for old in &was.values {
        let about = About::Released(old.at);
        match named.get(old.name) {
            Some(new) => found.unless(new.number == old.number, RENUMBERED, about),
            None if numbered.contains_key(&old.number) => found.add(RENAMED, about),
            None => found.add(VALUE_GONE, about),
        }
    }
}

/// The released bit fields, each against the first current one of its name.
pub fn bit_fields<'a>(is: &Schema<'a>, was: &Schema<'a>, found: &mut Found<'a>) {
    let now = first_of(&is.bit_fields, |one| one.name);
    for old in &was.bit_fields {
        match now.get(old.name) {
            None => found.add(BIT_FIELD_GONE, About::Released(old.at)),
            Some(new) => members(new, old, found),
        }
    }
}

fn members<'a>(is: &BitField<'a>, was: &BitField<'a>, found: &mut Found<'a>) {
    let named = first_of(&is.members, |member| member.name);
    let spans = first_of(&is.members, |member| (member.bit, member.width));
    for old in &was.members {
        let about = About::Released(old.at);
        match named.get(old.name) {
            Some(new) => {
                found.unless(new.bit == old.bit, BIT_MOVED, about);
                found.unless(new.width == old.width, WIDTH_CHANGED, about);
            }
            None if spans.contains_key(&(old.bit, old.width)) => found.add(MEMBER_RENAMED, about),
            None => found.add(MEMBER_GONE, about),
        }
    }
}
