//! The layouts of a record. The names come from the record's commands; offsets, sizes and descriptions come
//! from the lines of the proved list call, which are walked with the names.

use std::collections::BTreeMap;

use super::commands::{Said, FAMILY, FIELD, STRUCT, VARIANT};
use super::decode;
use super::room::list_whole;
use super::Problem;
use crate::{Record, Side};

/// A field as the list gives it.
#[derive(Clone, Debug, PartialEq, Eq)]
pub struct Field {
    pub name: Vec<u8>,
    pub offset: u64,
    pub size: u64,
    pub description: Vec<u8>,
    /// Whether its kind is the word padding; the comparison of types looks at this beside the description.
    pub padding: bool,
}

/// The fields of every type, by the type's whole name.
pub type Layouts = BTreeMap<Vec<u8>, Vec<Field>>;

/// The layouts of a record, read as this side.
pub fn layouts(record: Record, side: Side) -> Result<Layouts, Problem> {
    let (answer, list) = list_whole(record, side);
    if answer.number != 0 {
        return Err(Problem::Refused(answer));
    }
    let commands = decode::commands(record).map_err(|place| Problem::Undecoded { place })?;
    fit(named(&commands), &list).map_err(|line| Problem::Unfit { line })
}

/// A type as the commands describe it: its name, and its fields' names with whether they are padding.
struct Named {
    of_struct: bool,
    name: Vec<u8>,
    fields: Vec<(Vec<u8>, bool)>,
}

/// The types in the order of the list; of two of one name the later in flattening order stays, where all
/// structs come before the families.
fn named(commands: &[Said]) -> BTreeMap<Vec<u8>, Named> {
    let mut types: Vec<Named> = Vec::new();
    let mut family = Vec::new();
    for said in commands {
        let text = |index| said.text(index).unwrap_or_default().to_vec();
        match said.command.byte {
            STRUCT => types.push(Named { of_struct: true, name: text(0), fields: Vec::new() }),
            FAMILY => {
                family = text(0);
                let front = vec![(text(1), false), (text(3), false)];
                types.push(Named { of_struct: false, name: text(0), fields: front });
            }
            VARIANT => {
                let name = [&family[..], b"::", &text(0)].concat();
                types.push(Named { of_struct: false, name, fields: Vec::new() });
            }
            FIELD => {
                if let Some(open) = types.last_mut() {
                    open.fields.push((text(0), text(1) == b"padding"));
                }
            }
            _ => {}
        }
    }
    let (structs, families): (Vec<_>, Vec<_>) = types.into_iter().partition(|one| one.of_struct);
    structs.into_iter().chain(families).map(|one| (one.name.clone(), one)).collect()
}

/// Walks the lines with the names, or gives the number of the first line that does not fit.
fn fit(types: BTreeMap<Vec<u8>, Named>, list: &[u8]) -> Result<Layouts, usize> {
    let mut lines = Lines { rest: list, number: 0 };
    let mut layouts = Layouts::new();
    for (name, named) in types {
        let read = named.fields.into_iter().map(|field| lines.field(&name, field));
        let read = read.collect::<Result<Vec<Field>, usize>>()?;
        layouts.insert(name, read);
    }
    if lines.rest.is_empty() {
        Ok(layouts)
    } else {
        Err(lines.number + 1)
    }
}

/// The lines that are still to be walked.
struct Lines<'a> {
    rest: &'a [u8],
    number: usize,
}

impl Lines<'_> {
    fn field(&mut self, type_name: &[u8], (name, padding): (Vec<u8>, bool)) -> Result<Field, usize> {
        self.number += 1;
        let length = self.rest.iter().position(|byte| *byte == b'\n').ok_or(self.number)?;
        let (line, rest) = self.rest.split_at(length);
        self.rest = &rest[1..];
        let numbers = after_names(line, type_name, &name).and_then(numbers);
        let (offset, size, description) = numbers.ok_or(self.number)?;
        Ok(Field { name, offset, size, description: description.to_vec(), padding })
    }
}

/// What follows `type.field ` in a line.
fn after_names<'a>(line: &'a [u8], type_name: &[u8], name: &[u8]) -> Option<&'a [u8]> {
    line.strip_prefix(type_name)?.strip_prefix(b".")?.strip_prefix(name)?.strip_prefix(b" ")
}

/// Offset, size and description.
fn numbers(bytes: &[u8]) -> Option<(u64, u64, &[u8])> {
    let (offset, bytes) = number(bytes)?;
    let (size, description) = number(bytes)?;
    Some((offset, size, description))
}

/// A number in decimal, and what follows the space behind it.
fn number(bytes: &[u8]) -> Option<(u64, &[u8])> {
    let length = bytes.iter().position(|byte| *byte == b' ')?;
    let (digits, rest) = bytes.split_at(length);
    if digits.is_empty() || !digits.iter().all(u8::is_ascii_digit) {
        return None;
    }
    Some((std::str::from_utf8(digits).ok()?.parse().ok()?, &rest[1..]))
}

#[cfg(test)]
mod tests {
    use super::*;

    /// The layouts of a type `t` with fields `a` and `b c`, from this list.
    fn of(list: &str) -> Result<Layouts, usize> {
        let fields = vec![(b"a".to_vec(), false), (b"b c".to_vec(), true)];
        let named = Named { of_struct: true, name: b"t".to_vec(), fields };
        fit(BTreeMap::from([(b"t".to_vec(), named)]), list.as_bytes())
    }

    #[test]
    fn lines_that_fit() {
        let layouts = of("t.a 0 2 scalar u16\nt.b c 2 4294967293 \n").expect("they fit");
        let last = &layouts[&b"t"[..]][1];
        assert_eq!((last.offset, last.size, &last.description[..]), (2, 4_294_967_293, &b""[..]));
        assert!(last.padding);
    }

    #[test]
    fn lines_that_do_not_fit() {
        assert_eq!(of(""), Err(1));
        assert_eq!(of("t.a 0 2 scalar"), Err(1));
        assert_eq!(of("u.a 0 2 scalar\nt.b c 2 1 padding\n"), Err(1));
        assert_eq!(of("t.ab 0 2 scalar\nt.b c 2 1 padding\n"), Err(1));
        assert_eq!(of("t.a 0 2 scalar\n"), Err(2));
        assert_eq!(of("t.a 0 2 scalar\nt.b 2 1 padding\n"), Err(2));
        assert_eq!(of("t.a 0 2 scalar\nt.b c -2 1 padding\n"), Err(2));
        assert_eq!(of("t.a 0 2 scalar\nt.b c 2\n"), Err(2));
        assert_eq!(of("t.a 0 2 scalar\nt.b c 2 1 padding\nt.c 3 1 scalar\n"), Err(3));
    }
}
