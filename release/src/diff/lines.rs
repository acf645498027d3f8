//! The lines of two records in their text form, each beside the one that it belongs to.

use std::collections::HashMap;

use super::verdicts::About;
use super::State;
use crate::record::commands::{
    Said, BIT_FIELD, END, ENUM, FAMILY, FIELD, FIELD_KEY, HEAD, MEMBER, STRUCT, VALUE, VARIANT, VERSION,
};
use crate::record::sections;
use crate::text::line;

/// A line of either record or of both.
pub struct Line<'a> {
    /// The line that it stands in, if any: its word and name, a variant's behind its family's.
    pub parent: String,
    pub released: Option<&'a Said>,
    pub current: Option<&'a Said>,
    pub state: State,
    /// The verdicts on it; those on a field are in the layouts.
    pub numbers: Vec<u32>,
}

impl<'a> Line<'a> {
    /// Whether it changed or a verdict is about it.
    pub fn differs(&self) -> bool {
        self.state != State::Same || !self.numbers.is_empty()
    }

    /// The command of either record.
    pub fn said(&self) -> Option<&'a Said> {
        self.released.or(self.current)
    }
}

/// All lines, in the order of the released record, and then those that are new. Lines belong together if they have one command, one
/// name and one parent.
pub fn lines<'a>(
    released: &'a [Said],
    current: &'a [Said],
    numbers: &impl Fn(About<'a>) -> Vec<u32>,
) -> Vec<Line<'a>> {
    let (was, is) = (keyed(released), keyed(current));
    let now: HashMap<&Key, usize> = is.iter().map(|(key, at)| (key, *at)).collect();
    let then: HashMap<&Key, usize> = was.iter().map(|(key, at)| (key, *at)).collect();
    let of = |key: &Key, old: Option<usize>, new: Option<usize>| {
        let (was, is) = (old.map(|at| &released[at]), new.map(|at| &current[at]));
        let about = [old.map(About::Released), new.map(About::Current)];
        let head = (key.byte == HEAD).then_some(About::Head);
        Line {
            parent: key.parent.clone(),
            released: was,
            current: is,
            state: State::of(was.map(line), is.map(line)),
            numbers: head.into_iter().chain(about.into_iter().flatten()).flat_map(numbers).collect(),
        }
    };
    let kept = was.iter().map(|(key, at)| of(key, Some(*at), now.get(key).copied()));
    let new = is.iter().filter(|(key, _)| !then.contains_key(key)).map(|(key, at)| of(key, None, Some(*at)));
    kept.chain(new).collect()
}

/// What tells a line from others: its parent, its command, its name, and how many such lines stand before it.
#[derive(Clone, PartialEq, Eq, Hash)]
struct Key {
    parent: String,
    byte: u8,
    name: Vec<u8>,
    nth: usize,
}

/// The commands but the end, each with its key and its index.
fn keyed(commands: &[Said]) -> Vec<(Key, usize)> {
    let mut count: HashMap<Key, usize> = HashMap::new();
    let (mut family, mut open) = (String::new(), String::new());
    let mut lines = Vec::new();
    for (at, said) in commands.iter().enumerate().filter(|(_, said)| said.command.byte != END) {
        let byte = said.command.byte;
        let name = said.text(0).filter(|_| byte != HEAD).unwrap_or_default();
        let parent = match byte {
            VALUE | MEMBER | FIELD | FIELD_KEY => open.clone(),
            VARIANT => family.clone(),
            _ => String::new(),
        };
        match byte {
            ENUM | BIT_FIELD | STRUCT | FAMILY => {
                open = sections::name(said);
                family = open.clone();
            }
            VARIANT => open = format!("{family}, {}", sections::name(said)),
            _ => {}
        }
        // A version line has nothing but its name, which its number belongs to.
        let name = if byte == VERSION { line(said).into_bytes() } else { name.to_vec() };
        let mut key = Key { parent, byte, name, nth: 0 };
        let nth = count.entry(key.clone()).or_default();
        key.nth = *nth;
        *nth += 1;
        lines.push((key, at));
    }
    lines
}
