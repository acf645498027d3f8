//! The generations of two records: in each slot its structure, the constant that this names, and what the constant holds.

use super::schema::{Held, Schema, SLOT_ORDER};
use super::verdicts::About;
use super::State;

/// A slot that either record fills.
pub struct Slot<'a> {
    pub slot: &'static [u8],
    pub released: Option<Generation<'a>>,
    pub current: Option<Generation<'a>>,
    pub state: State,
    pub numbers: Vec<u32>,
}

impl Slot<'_> {
    /// Whether it changed or a verdict is about it.
    pub fn differs(&self) -> bool {
        self.state != State::Same || !self.numbers.is_empty()
    }
}

#[derive(Clone, Copy, PartialEq, Eq)]
pub struct Generation<'a> {
    pub structure: &'a [u8],
    pub constant: Option<&'a [u8]>,
    /// None where the constant is not there.
    pub value: Option<Held<'a>>,
}

/// The slots in the order of the check.
pub fn slots<'a>(
    was: &Schema<'a>,
    is: &Schema<'a>,
    numbers: &impl Fn(About<'a>) -> Vec<u32>,
) -> Vec<Slot<'a>> {
    let of = |slot: &&'static [u8]| {
        let (released, current) = (generation(was, slot), generation(is, slot));
        released.or(current)?;
        let state = State::of(released, current);
        Some(Slot { slot, released, current, state, numbers: numbers(About::Slot(slot)) })
    };
    SLOT_ORDER.iter().filter_map(of).collect()
}

fn generation<'a>(schema: &Schema<'a>, slot: &[u8]) -> Option<Generation<'a>> {
    let structure = schema.root(slot)?.name;
    // The check looks the structure up by its name.
    let constant = schema.structs.iter().find(|one| one.name == structure)?.version;
    let value = constant.and_then(|name| schema.constant(name)).map(|constant| constant.value);
    Some(Generation { structure, constant, value })
}
