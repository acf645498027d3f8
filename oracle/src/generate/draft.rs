//! The contents of a pair while it is being made.

use super::words;
use crate::json;
use crate::model::{
    BitField, Constant, Content, Enum, Family, Field, Item, Key, Struct, Value, Version,
};
use crate::rng::Rng;

#[derive(Clone, Debug)]
pub struct Draft {
    pub released: Content,
    pub current: Content,
    named: usize,
    raised: Vec<String>,
}

impl Draft {
    pub fn new(then: Option<&str>, now: &str) -> Self {
        let released = Content {
            release: then.map(str::to_string),
            ..Content::default()
        };
        let current = Content {
            release: Some(now.to_string()),
            ..Content::default()
        };
        Draft::of(released, current, 0)
    }

    /// A draft of these contents, which hold no name numbered above `named`.
    pub fn of(released: Content, current: Content, named: usize) -> Self {
        Draft {
            released,
            current,
            named,
            raised: Vec::new(),
        }
    }

    /// A draft of the release after this record. Its names are new beside those
    /// of this draft too.
    pub fn following(&self, last: &Content, now: &str) -> Self {
        let current = Content {
            release: Some(now.to_string()),
            ..last.clone()
        };
        Draft::of(last.clone(), current, self.named)
    }

    /// A name that no other of this draft equals.
    pub fn name(&mut self, rng: &mut Rng) -> String {
        self.named += 1;
        words::name(rng, self.named)
    }

    /// The current release.
    pub fn now(&self) -> String {
        let now = self.current.release.clone();
        now.expect("a current record has a release")
    }

    /// Put an item into both contents, each at a drawn place.
    pub fn both(&mut self, item: impl Into<Item>, rng: &mut Rng) {
        let item = item.into();
        rng.insert(&mut self.released.items, item.clone());
        rng.insert(&mut self.current.items, item);
    }

    /// Put an item into the current content, at a drawn place.
    pub fn add(&mut self, item: impl Into<Item>, rng: &mut Rng) {
        rng.insert(&mut self.current.items, item.into());
    }

    /// Take the items that `gone` holds of out of the current content.
    pub fn drop_items(&mut self, gone: impl Fn(&Item) -> bool) {
        self.current.items.retain(|item| !gone(item));
    }

    /// The root that owns a name in the current content, by the Rust's walk.
    pub fn owner(&self, name: &str) -> Option<String> {
        let schema = json::schema(&self.current);
        let owners = schema.ownership();
        owners.get(name).map(|root| root.to_string())
    }

    /// The names of current structures and families that a root owns.
    pub fn owned(&self) -> Vec<String> {
        let schema = json::schema(&self.current);
        let owners = schema.ownership();
        let structs = self.current.structs().map(|s| &s.name);
        let families = self.current.families().map(|f| &f.name);
        structs
            .chain(families)
            .filter(|name| owners.contains_key(name.as_str()))
            .cloned()
            .collect()
    }

    /// Raise the generation of the root that owns a name by one, with its
    /// entry, unless that was done before or it can't be raised.
    pub fn raise_for(&mut self, owned: &str, rng: &mut Rng) {
        let root = self.owner(owned).expect("the name is owned");
        if self.raised.contains(&root) {
            return;
        }
        let Some(version) = self.raise(&root) else {
            return;
        };
        self.add(
            Version {
                struct_name: root.clone(),
                version,
            },
            rng,
        );
        self.raised.push(root);
    }

    /// Raise the constant of a root by one, if it stays a generation.
    fn raise(&mut self, root: &str) -> Option<u32> {
        let name = self.current.the_struct(root).constant.clone()?;
        let constant = self.current.constants_mut().find(|c| c.name == name)?;
        let Value::Integer(generation) = &mut constant.value else {
            return None;
        };
        let version = u32::try_from(generation.checked_add(1)?).ok()?;
        *generation = version.into();
        Some(version)
    }

    /// Put a field at the end of a current structure.
    pub fn append(&mut self, structure: &str, field: Field) {
        self.current.the_struct(structure).fields.push(field);
    }
}

/// Look-ups of an item that is known to be there.
macro_rules! the {
    ($($the:ident: $item:ident in $walk:ident;)*) => {
        impl Content {
            $(
                pub fn $the(&mut self, name: &str) -> &mut $item {
                    let found = self.$walk().find(|item| item.name == name);
                    found.unwrap_or_else(|| panic!("{name} is not there"))
                }
            )*
        }
    };
}

the! {
    the_constant: Constant in constants_mut;
    the_enum: Enum in enums_mut;
    the_bit_field: BitField in bit_fields_mut;
    the_struct: Struct in structs_mut;
    the_family: Family in families_mut;
    the_key: Key in keys_mut;
}
