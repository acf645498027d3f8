//! The premise of W-214 in document 02: "no name or slot twice in its list or among the layouts". A list is one
//! section's, the values or members of one parent, or all plugin keys together; version entries are free.

use std::collections::HashSet;

use super::commands::{Said, FAMILY, FIELD_KEY, STRUCT, UNSTORED_KEY, VERSION};
use super::sections::{name, Block};
use crate::text::written;

/// The first name or slot of a record that stands twice, as a person reads it.
pub fn twice(record: &Block) -> Option<String> {
    let mut lists = Lists::default();
    record.parts.iter().find_map(|section| lists.section(section))
}

/// The names met so far, by what they are the names of.
#[derive(Default)]
struct Lists {
    met: HashSet<(&'static str, Vec<u8>)>,
}

impl Lists {
    /// Notes what a section names, or tells the first of it that was named before.
    fn section(&mut self, section: &Block) -> Option<String> {
        let opener = section.opener();
        let named = own_name(opener);
        match opener.command.byte {
            VERSION => None,
            UNSTORED_KEY => self.key(opener),
            STRUCT => self.note(opener.command.word, named).or_else(|| self.structure(section)),
            FAMILY => self.note(opener.command.word, named).or_else(|| self.family(section)),
            _ => self.note(opener.command.word, named).or_else(|| parts_twice(section)),
        }
    }

    /// A structure's slot and layout, and the plugin keys of its fields.
    fn structure(&mut self, section: &Block) -> Option<String> {
        let slot = section.opener().text(1).and_then(|slot| self.note("slot", slot));
        let layout = slot.or_else(|| self.note("layout", own_name(section.opener())));
        let mut keys = section.fixed.iter().filter(|said| said.command.byte == FIELD_KEY);
        layout.or_else(|| keys.find_map(|said| self.key(said)))
    }

    /// The layouts of a family and of its variants; the keys of its fields are in no list.
    fn family(&mut self, section: &Block) -> Option<String> {
        let family = own_name(section.opener());
        let variant = |part: &Block| [family, b"::", own_name(part.opener())].concat();
        let layout = self.note("layout", family);
        layout.or_else(|| section.parts.iter().find_map(|part| self.note("layout", &variant(part))))
    }

    fn key(&mut self, said: &Said) -> Option<String> {
        self.note("plugin key", own_name(said))
    }

    fn note(&mut self, list: &'static str, name: &[u8]) -> Option<String> {
        let new = self.met.insert((list, name.to_vec()));
        (!new).then(|| format!("{list} {}", written(name)))
    }
}

/// The first value or member that stands twice in its section.
fn parts_twice(section: &Block) -> Option<String> {
    let mut met = HashSet::new();
    let twice = section.parts.iter().find(|part| !met.insert(own_name(part.opener())))?;
    Some(format!("{}, {}", name(section.opener()), name(twice.opener())))
}

fn own_name(said: &Said) -> &[u8] {
    said.text(0).unwrap_or_default()
}
