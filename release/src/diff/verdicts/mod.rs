//! Every verdict that the check would give if none came before it, and what it is about. The rules are those of the definition
//! (crates/definition/specs), pass by pass and in its order, so that the first is the check's answer: a test holds it to the proved call.

mod declarations;
mod generations;
mod layouts;
mod releases;

use std::collections::HashMap;
use std::hash::Hash;

use super::rows::Type;
use super::schema::Schema;

#[derive(Clone, Copy, Debug, PartialEq, Eq)]
pub struct Verdict<'a> {
    pub number: u32,
    pub about: About<'a>,
}

/// What a verdict is about.
#[derive(Clone, Copy, Debug, PartialEq, Eq, Hash)]
pub enum About<'a> {
    /// The releases of both records.
    Head,
    /// A command of the current record, or of the released one, by its index.
    Current(usize),
    Released(usize),
    /// A type, or a row of it.
    Type(&'a [u8]),
    Row(&'a [u8], usize),
    /// The structure in a slot and its generation.
    Slot(&'static [u8]),
}

const DESCRIBED: u32 = 11;

/// All of them, in the order of the check; of what one item breaks by the same fact the first.
pub fn verdicts<'a>(is: &Schema<'a>, was: &Schema<'a>, types: &[Type<'a>]) -> Vec<Verdict<'a>> {
    let mut found = Found::default();
    if was.unreleased {
        found.unless(!was.describes, DESCRIBED, About::Head);
        return found.verdicts;
    }
    releases::order(is, was, &mut found);
    releases::first_releases(is, was, &mut found);
    declarations::constants(is, was, &mut found);
    declarations::enums(is, was, &mut found);
    declarations::bit_fields(is, was, &mut found);
    releases::bit_fields(is, was, &mut found);
    layouts::fields(types, &mut found);
    layouts::standalone(is, was, &mut found);
    generations::covered(is, types, &mut found);
    generations::raised(is, was, types, &mut found);
    found.verdicts
}

#[derive(Default)]
struct Found<'a> {
    verdicts: Vec<Verdict<'a>>,
}

impl<'a> Found<'a> {
    fn add(&mut self, number: u32, about: About<'a>) {
        self.verdicts.push(Verdict { number, about });
    }

    /// Adds the verdict that is broken, if any.
    fn add_any(&mut self, broken: Option<u32>, about: About<'a>) {
        broken.into_iter().for_each(|number| self.add(number, about));
    }

    /// Adds a verdict where a test does not hold.
    fn unless(&mut self, holds: bool, number: u32, about: About<'a>) {
        if !holds {
            self.add(number, about);
        }
    }
}

/// The first of each name.
fn first_of<T, N: Hash + Eq>(list: &[T], name: impl Fn(&T) -> N) -> HashMap<N, &T> {
    list.iter().rev().map(|one| (name(one), one)).collect()
}

/// The last of each name.
fn last_of<'s, T, N: Hash + Eq>(
    list: impl IntoIterator<Item = &'s T>,
    name: impl Fn(&T) -> N,
) -> HashMap<N, &'s T> {
    list.into_iter().map(|one| (name(one), one)).collect()
}
