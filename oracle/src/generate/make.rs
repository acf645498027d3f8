//! Short ways to write contents down.

use crate::model::{
    Alias, BitField, Constant, Content, Enum, EnumValue, Family, Field, Item, Key, Member, Struct,
    Value, Variant, Version,
};

pub fn content(release: &str) -> Content {
    Content {
        release: Some(release.into()),
        ..Content::default()
    }
}

impl Content {
    pub fn with(mut self, item: impl Into<Item>) -> Self {
        self.items.push(item.into());
        self
    }

    pub fn without_release(mut self) -> Self {
        self.release = None;
        self
    }

    pub fn unreleased(mut self) -> Self {
        self.unreleased = true;
        self
    }
}

pub fn integer(name: &str, value: i64) -> Constant {
    Constant {
        name: name.into(),
        value: Value::Integer(value),
        ora_api: false,
        first_release: None,
    }
}

pub fn text(name: &str, value: &str) -> Constant {
    Constant {
        value: Value::Text(value.into()),
        ..integer(name, 0)
    }
}

impl Constant {
    /// In the plugin API, without a date.
    pub fn ora(mut self) -> Self {
        self.ora_api = true;
        self
    }

    pub fn dated(mut self, release: &str) -> Self {
        self.first_release = Some(release.into());
        self
    }
}

pub fn alias(name: &str, underlying: &str) -> Alias {
    Alias {
        name: name.into(),
        underlying: underlying.into(),
    }
}

pub fn enumeration(name: &str, size: u32) -> Enum {
    Enum {
        name: name.into(),
        size,
        ora_api: false,
        first_release: None,
        values: Vec::new(),
    }
}

impl Enum {
    /// In the plugin API, without a date.
    pub fn ora(mut self) -> Self {
        self.ora_api = true;
        self
    }

    pub fn dated(mut self, release: &str) -> Self {
        self.first_release = Some(release.into());
        self
    }

    pub fn value(mut self, name: &str, value: i64) -> Self {
        self.values.push(EnumValue {
            name: name.into(),
            value,
            first_release: None,
        });
        self
    }

    pub fn dated_value(self, name: &str, value: i64, release: &str) -> Self {
        let mut with = self.value(name, value);
        with.values.last_mut().expect("just added").first_release = Some(release.into());
        with
    }
}

pub fn bit_field(name: &str, size: u32, release: &str) -> BitField {
    BitField {
        name: name.into(),
        size,
        first_release: Some(release.into()),
        members: Vec::new(),
    }
}

impl BitField {
    pub fn undated(mut self) -> Self {
        self.first_release = None;
        self
    }

    pub fn member(mut self, name: &str, bit: u32, width: Option<u32>) -> Self {
        self.members.push(Member {
            name: name.into(),
            bit,
            width,
            first_release: None,
        });
        self
    }

    pub fn dated_member(self, name: &str, bit: u32, release: &str) -> Self {
        let mut with = self.member(name, bit, None);
        with.members.last_mut().expect("just added").first_release = Some(release.into());
        with
    }
}

pub fn structure(name: &str) -> Struct {
    Struct {
        name: name.into(),
        slot: None,
        constant: None,
        fields: Vec::new(),
    }
}

/// A structure with a slot and a generation constant.
pub fn root(name: &str, slot: &str, constant: &str) -> Struct {
    Struct {
        constant: Some(constant.into()),
        ..slotted(name, slot)
    }
}

/// A structure with a slot and no generation constant.
pub fn slotted(name: &str, slot: &str) -> Struct {
    Struct {
        slot: Some(slot.into()),
        ..structure(name)
    }
}

impl Struct {
    pub fn field(mut self, field: Field) -> Self {
        self.fields.push(field);
        self
    }
}

pub fn family(name: &str) -> Family {
    Family {
        name: name.into(),
        discriminant_field: "d".into(),
        discriminant_type: "e".into(),
        param_len_field: "l".into(),
        param_len_type: None,
        standalone: false,
        common_fields: Vec::new(),
        variants: Vec::new(),
    }
}

impl Family {
    pub fn standalone(mut self) -> Self {
        self.standalone = true;
        self
    }

    pub fn common(mut self, field: Field) -> Self {
        self.common_fields.push(field);
        self
    }

    pub fn variant(mut self, discriminant: &str, fields: &[Field]) -> Self {
        self.variants.push(Variant {
            discriminant: discriminant.into(),
            fields: fields.to_vec(),
        });
        self
    }
}

pub fn field(name: &str, kind: &str) -> Field {
    Field {
        name: name.into(),
        kind: kind.into(),
        ..Field::default()
    }
}

pub fn scalar(name: &str, type_: &str) -> Field {
    field(name, "scalar").of(type_)
}

pub fn padding(name: &str, size: u32) -> Field {
    Field {
        size: Some(size),
        ..field(name, "padding")
    }
}

pub fn array(name: &str, element: &str, count: u32) -> Field {
    Field {
        count: Some(count),
        ..field(name, "inline_array").each(element)
    }
}

pub fn array2d(name: &str, element: &str, rows: u32, cols: u32) -> Field {
    Field {
        rows: Some(rows),
        cols: Some(cols),
        ..field(name, "inline_array2d").each(element)
    }
}

pub fn pointer(name: &str, type_: &str) -> Field {
    field(name, "struct_ptr").of(type_)
}

impl Field {
    pub fn of(mut self, type_: &str) -> Self {
        self.type_ = Some(type_.into());
        self
    }

    pub fn each(mut self, element: &str) -> Self {
        self.element = Some(element.into());
        self
    }

    pub fn keyed(mut self, name: &str, release: &str) -> Self {
        self.key = Some(key(name, release));
        self
    }
}

pub fn key(name: &str, release: &str) -> Key {
    Key {
        name: name.into(),
        first_release: Some(release.into()),
    }
}

pub fn version(struct_name: &str, version: u32) -> Version {
    Version {
        struct_name: struct_name.into(),
        version,
    }
}
