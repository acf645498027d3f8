//! Verdicts 40 to 46: which generation number covers a changed type, and how it has to rise.

use std::cmp::Ordering;
use std::collections::HashSet;

use super::{About, Found};
use crate::diff::rows::Type;
use crate::diff::schema::{Held, Schema, SLOT_ORDER};
use crate::diff::State;

const UNCOVERED: u32 = 40;
const NO_CONSTANT: u32 = 41;
const NO_GENERATION: u32 = 42;
const UNRAISED: u32 = 43;
const UNLISTED: u32 = 44;
const LEAPT: u32 = 45;
const FELL: u32 = 46;

/// The part of a layout's name that its owner is looked up by: all before the first "::".
fn owning(name: &[u8]) -> &[u8] {
    let joint = name.windows(2).position(|two| two == b"::");
    joint.map_or(name, |at| &name[..at])
}

/// The current types that differ at all, new ones included, but for those of standalone families.
fn changed<'a, 't>(is: &Schema<'a>, types: &'t [Type<'a>]) -> Vec<&'t Type<'a>> {
    let alone: HashSet<&[u8]> = is.families.iter().filter(|one| one.standalone).map(|one| one.name).collect();
    let differs = |one: &&Type| matches!(one.state, State::New | State::Changed);
    types.iter().filter(differs).filter(|one| !alone.contains(owning(one.name))).collect()
}

/// Every changed type belongs to a versioned structure.
pub fn covered<'a>(is: &Schema<'a>, types: &[Type<'a>], found: &mut Found<'a>) {
    for one in changed(is, types) {
        found.unless(is.owners.contains_key(owning(one.name)), UNCOVERED, About::Type(one.name));
    }
}

/// The generation of each slot's structure, against the released constant of its name.
pub fn raised<'a>(is: &Schema<'a>, was: &Schema<'a>, types: &[Type<'a>], found: &mut Found<'a>) {
    let changed = changed(is, types);
    for slot in SLOT_ORDER {
        let Some(root) = is.root(slot).map(|root| root.name) else { continue };
        let Some((constant, now)) = is.generation(root) else {
            found.add(NO_CONSTANT, About::Slot(slot));
            continue;
        };
        // A constant that was not there, or was a text, says nothing.
        let Some(Held::Integer(then)) = was.constant(constant).map(|constant| constant.value) else {
            continue;
        };
        let Ok(then) = u32::try_from(then) else {
            found.add(NO_GENERATION, About::Slot(slot));
            continue;
        };
        match now.cmp(&then) {
            Ordering::Less => found.add(FELL, About::Slot(slot)),
            Ordering::Equal => {
                let under = changed.iter().filter(|one| is.owners.get(owning(one.name)) == Some(&root));
                unraised(slot, under.map(|one| one.name), found);
            }
            Ordering::Greater if now - then == 1 => {
                found.unless(is.versions.contains(&(root, now)), UNLISTED, About::Slot(slot));
            }
            Ordering::Greater => found.add(LEAPT, About::Slot(slot)),
        }
    }
}

/// A number that stays: it is about the slot and about every type under it that changed.
fn unraised<'a>(slot: &'static [u8], under: impl Iterator<Item = &'a [u8]>, found: &mut Found<'a>) {
    let under: Vec<About> = under.map(About::Type).collect();
    if !under.is_empty() {
        found.add(UNRAISED, About::Slot(slot));
    }
    under.into_iter().for_each(|about| found.add(UNRAISED, about));
}
