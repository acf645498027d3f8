//! Walks over every text and every named part of a content.

use crate::model::{Content, Field, Item, Value};

impl Content {
    /// Hand every text that is there to `f`.
    pub fn each_text(&mut self, f: &mut dyn FnMut(&mut String)) {
        self.release.iter_mut().for_each(&mut *f);
        for item in &mut self.items {
            item_texts(item, f);
        }
        self.each_optional(&mut |optional| optional.iter_mut().for_each(&mut *f));
    }

    /// Hand every text that may be absent to `f`, the release apart.
    pub fn each_optional(&mut self, f: &mut dyn FnMut(&mut Option<String>)) {
        for item in &mut self.items {
            item_optionals(item, f);
        }
    }

    /// This content without any part of this name.
    pub fn without(&self, name: &str) -> Content {
        let mut content = self.clone();
        content.items.retain(|item| item.name() != name);
        for item in &mut content.items {
            match item {
                Item::Enum(e) => e.values.retain(|v| v.name != name),
                Item::BitField(b) => b.members.retain(|m| m.name != name),
                Item::Family(f) => f.variants.retain(|v| v.discriminant != name),
                _ => {}
            }
            for fields in item.fields_mut() {
                fields.retain(|field| field.name != name);
                for field in fields {
                    field.key.take_if(|key| key.name == name);
                }
            }
        }
        content
    }
}

impl Item {
    pub fn name(&self) -> &str {
        match self {
            Item::Constant(c) => &c.name,
            Item::Alias(a) => &a.name,
            Item::Enum(e) => &e.name,
            Item::BitField(b) => &b.name,
            Item::Struct(s) => &s.name,
            Item::Family(f) => &f.name,
            Item::Key(k) => &k.name,
            Item::Version(v) => &v.struct_name,
        }
    }

    /// The lists of fields in an item: a structure's, or a family's and those
    /// of its variants.
    pub fn fields_mut(&mut self) -> Vec<&mut Vec<Field>> {
        match self {
            Item::Struct(s) => vec![&mut s.fields],
            Item::Family(f) => {
                let mut lists = vec![&mut f.common_fields];
                lists.extend(f.variants.iter_mut().map(|v| &mut v.fields));
                lists
            }
            _ => Vec::new(),
        }
    }
}

/// The texts of an item that are never absent.
fn item_texts(item: &mut Item, f: &mut dyn FnMut(&mut String)) {
    match item {
        Item::Constant(c) => {
            f(&mut c.name);
            if let Value::Text(text) = &mut c.value {
                f(text);
            }
        }
        Item::Alias(a) => [&mut a.name, &mut a.underlying]
            .into_iter()
            .for_each(&mut *f),
        Item::Enum(e) => {
            f(&mut e.name);
            e.values.iter_mut().for_each(|v| f(&mut v.name));
        }
        Item::BitField(b) => {
            f(&mut b.name);
            b.members.iter_mut().for_each(|m| f(&mut m.name));
        }
        Item::Struct(s) => f(&mut s.name),
        Item::Family(family) => {
            f(&mut family.name);
            f(&mut family.discriminant_field);
            f(&mut family.discriminant_type);
            f(&mut family.param_len_field);
            (family.variants.iter_mut()).for_each(|v| f(&mut v.discriminant));
        }
        Item::Key(k) => f(&mut k.name),
        Item::Version(v) => f(&mut v.struct_name),
    }
    for field in item.fields_mut().into_iter().flatten() {
        f(&mut field.name);
        f(&mut field.kind);
        field.key.iter_mut().for_each(|key| f(&mut key.name));
    }
}

/// The texts of an item that may be absent.
fn item_optionals(item: &mut Item, f: &mut dyn FnMut(&mut Option<String>)) {
    match item {
        Item::Constant(c) => f(&mut c.first_release),
        Item::Enum(e) => {
            f(&mut e.first_release);
            (e.values.iter_mut()).for_each(|v| f(&mut v.first_release));
        }
        Item::BitField(b) => {
            f(&mut b.first_release);
            (b.members.iter_mut()).for_each(|m| f(&mut m.first_release));
        }
        Item::Struct(s) => {
            f(&mut s.slot);
            f(&mut s.constant);
        }
        Item::Family(family) => f(&mut family.param_len_type),
        Item::Key(k) => f(&mut k.first_release),
        Item::Alias(_) | Item::Version(_) => {}
    }
    for field in item.fields_mut().into_iter().flatten() {
        f(&mut field.type_);
        f(&mut field.element);
        (field.key.iter_mut()).for_each(|key| f(&mut key.first_release));
    }
}
