//! The lines of all that is no field, each as it was and as it is now, and the generations.

use std::collections::HashMap;

use menqachu::diff::lines::Line as Pair;
use menqachu::diff::schema::Held;
use menqachu::diff::slots::Generation;
use menqachu::diff::{Differences, State};
use menqachu::record::commands::{Said, FAMILY, FIELD, HEAD, STRUCT, VARIANT, VERSION};
use menqachu::record::sections::name;
use menqachu::text::alike::Alike;
use menqachu::text::{operands, written};

use super::columns::{Cell, Line, Table};
use super::marks::of_state;
use crate::command::paint::Style;

/// A section, or a variant: its own line, and the lines of its parts.
struct Entry<'d> {
    byte: u8,
    heading: String,
    own: Option<&'d Pair<'d>>,
    parts: Vec<&'d Pair<'d>>,
}

/// Those that differ or that a verdict is about, or all, under a heading; none where there is none.
pub fn lines(found: &Differences, alike: &Alike, all: bool) -> Vec<Line> {
    let shown = |pair: &&Pair| all || pair.differs();
    let mut lines = Vec::new();
    for entry in entries(&found.lines, alike) {
        let own = entry.own.filter(shown).filter(|pair| !left_to_layouts(pair));
        let parts: Vec<Line> =
            entry.parts.into_iter().filter(shown).map(|pair| row(pair, "    ", alike)).collect();
        match own {
            Some(pair) => lines.push(row(pair, "", alike)),
            None if parts.is_empty() => {}
            None => lines.push(Line::Whole(vec![Cell::new(entry.heading, Style::Heading)])),
        }
        lines.extend(parts);
    }
    for slot in found.slots.iter().filter(|slot| all || slot.differs()) {
        let heading = Cell::new(format!("generation {}", written(slot.slot)), Style::Heading);
        let [was, is] = [slot.released, slot.current].map(|one| Cell::plain(generation(one, alike)));
        let marks = of_state(slot.state, &slot.numbers);
        lines.push(Line::Cells(Table::Declarations, vec![heading, was, is, marks]));
    }
    if !lines.is_empty() {
        let heads = ["", "released", "current"].map(|text| Cell::new(text, Style::Heading));
        lines.insert(0, Line::Cells(Table::Declarations, heads.into()));
    }
    lines
}

/// Types that are new or gone are shown with their fields.
fn left_to_layouts(pair: &Pair) -> bool {
    let of_type = pair.said().is_some_and(|said| matches!(said.command.byte, STRUCT | FAMILY));
    of_type && pair.numbers.is_empty() && matches!(pair.state, State::New | State::Gone)
}

/// The lines by what they stand in, in the order of their commands' bytes; fields are left out, and so are the lines of variants, which
/// have nothing but a name.
fn entries<'d>(pairs: &'d [Pair<'d>], alike: &Alike) -> Vec<Entry<'d>> {
    let mut entries: Vec<Entry> = Vec::new();
    let mut places: HashMap<String, usize> = HashMap::new();
    for pair in pairs {
        let Some(said) = pair.said() else { continue };
        let byte = said.command.byte;
        match byte {
            FIELD => {}
            VARIANT => {
                let heading = format!("{}, {}", pair.parent, name(said));
                places.entry(heading.clone()).or_insert(entries.len());
                entries.push(Entry { byte: FAMILY, heading, own: None, parts: Vec::new() });
            }
            _ if pair.parent.is_empty() => {
                places.entry(name(said)).or_insert(entries.len());
                entries.push(Entry { byte, heading: named(said, alike), own: Some(pair), parts: Vec::new() });
            }
            _ => {
                let place = places.get(&pair.parent).and_then(|place| entries.get_mut(*place));
                place.into_iter().for_each(|entry| entry.parts.push(pair));
            }
        }
    }
    entries.sort_by_key(|entry| entry.byte);
    entries
}

/// A command's word and name.
fn named(said: &Said, alike: &Alike) -> String {
    let own = said.text(0).unwrap_or_default();
    match said.command.byte {
        HEAD => "release".to_string(),
        VERSION => format!("version {}{}", alike.named(own), operands(said, 1)),
        _ => format!("{} {}", said.command.word, alike.named(own)),
    }
}

fn row(pair: &Pair, indent: &str, alike: &Alike) -> Line {
    let name = pair.said().map_or(String::new(), |said| named(said, alike));
    let style = if indent.is_empty() { Style::Heading } else { Style::Plain };
    let [was, is] = [pair.released, pair.current].map(|said| Cell::plain(said.map_or("-".to_string(), cell)));
    let cells =
        vec![Cell::new(format!("{indent}{name}"), style), was, is, of_state(pair.state, &pair.numbers)];
    Line::Cells(Table::Declarations, cells)
}

/// What a line says behind its name.
fn cell(said: &Said) -> String {
    let from = match said.command.byte {
        HEAD => 0,
        VERSION => 2,
        _ => 1,
    };
    let text = operands(said, from).trim_start().to_string();
    match said.command.byte {
        _ if !text.is_empty() => text,
        HEAD => "no release".to_string(),
        STRUCT => "no slot".to_string(),
        _ => "declared".to_string(),
    }
}

/// A structure, the constant that it names, and what that holds.
fn generation(one: Option<Generation>, alike: &Alike) -> String {
    let Some(Generation { structure, constant, value }) = one else { return "-".to_string() };
    let constant = constant.map_or("names no constant".to_string(), |constant| alike.named(constant));
    let value = match value {
        Some(Held::Integer(number)) => format!(" {number}"),
        Some(Held::Text(text)) => format!(" text={}", written(text)),
        None => String::new(),
    };
    format!("{} {constant}{value}", alike.named(structure))
}
