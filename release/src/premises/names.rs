//! The lists of names in a record, as document 01 has them: "one section, the fields, values, members or variants of one
//! parent, or all plugin keys together; version entries are free".

use crate::record::commands::{
    Said, BIT_FIELD, ENUM, FAMILY, FIELD, FIELD_KEY, MEMBER, STRUCT, UNSTORED_KEY, VALUE, VARIANT, VERSION,
};
use crate::text::written;

/// A list of names: what they are the names of, with the parent where they have one.
#[derive(Default)]
pub struct List {
    pub what: &'static str,
    pub parent: Option<String>,
    pub names: Vec<Vec<u8>>,
}

impl List {
    /// A name of the list for a message: `field n of tile`.
    pub fn named(&self, name: &[u8]) -> String {
        let of = self.parent.as_ref().map_or(String::new(), |parent| format!(" of {parent}"));
        format!("{} {}{of}", self.what, written(name))
    }
}

/// What a record's names are.
#[derive(Default)]
pub struct Names {
    /// The six sections whose names are looked up, all plugin keys, and the parts of each parent.
    pub lists: Vec<List>,
    pub slots: List,
    /// The names of all layouts.
    pub layouts: List,
}

/// The six sections whose names count, by their words in the text form.
const SECTIONS: [&str; 6] = ["constant", "alias", "enum", "bitfield", "struct", "family"];
const KEYS: usize = SECTIONS.len();

pub fn names(commands: &[Said]) -> Names {
    let mut names = Names {
        lists: SECTIONS.iter().chain(&["plugin key"]).map(|what| list(what, None)).collect(),
        slots: list("slot", None),
        layouts: list("layout", None),
    };
    // The lists that the next field and the next value, member or variant belong to.
    let (mut fields, mut parts) = (KEYS, KEYS);
    let mut family = Vec::new();
    for said in commands {
        let name = said.text(0).unwrap_or_default().to_vec();
        let byte = said.command.byte;
        if let Some(section) = SECTIONS.iter().position(|word| *word == said.command.word) {
            names.lists[section].names.push(name.clone());
        }
        match byte {
            ENUM => parts = names.open("value", &name),
            BIT_FIELD => parts = names.open("member", &name),
            STRUCT => {
                names.slots.names.extend(said.text(1).map(<[u8]>::to_vec));
                names.layouts.names.push(name.clone());
                fields = names.open("field", &name);
            }
            FAMILY => {
                names.layouts.names.push(name.clone());
                parts = names.open("variant", &name);
                fields = names.open("field", &name);
                // A family's layout begins with its discriminant and its length.
                let front = [1, 3].map(|index| said.text(index).unwrap_or_default().to_vec());
                names.lists[fields].names.extend(front);
                family = name;
            }
            VARIANT => {
                let layout = [&family[..], b"::", &name].concat();
                names.lists[parts].names.push(name);
                fields = names.open("field", &layout);
                names.layouts.names.push(layout);
            }
            VALUE | MEMBER => names.lists[parts].names.push(name),
            FIELD => names.lists[fields].names.push(name),
            FIELD_KEY | UNSTORED_KEY => names.lists[KEYS].names.push(name),
            VERSION => {}
            _ => {}
        }
    }
    names
}

fn list(what: &'static str, parent: Option<String>) -> List {
    List { what, parent, names: Vec::new() }
}

impl Names {
    /// Begins a list of a parent's parts, and gives its index.
    fn open(&mut self, what: &'static str, parent: &[u8]) -> usize {
        self.lists.push(list(what, Some(written(parent))));
        self.lists.len() - 1
    }
}

/// The names that stand more than once in a list, each once.
pub fn repeated(names: &[Vec<u8>]) -> Vec<&[u8]> {
    let mut sorted: Vec<&[u8]> = names.iter().map(Vec::as_slice).collect();
    sorted.sort_unstable();
    let mut repeated: Vec<&[u8]> =
        sorted.windows(2).filter(|two| two[0] == two[1]).map(|two| two[0]).collect();
    repeated.dedup();
    repeated
}
