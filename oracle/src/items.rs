//! Judged commands as the items of a content.

use crate::commands;
use crate::model::{
    Alias, BitField, Constant, Content, Enum, EnumValue, Family, Field, Item, Key, Member, Struct,
    Value, Variant, Version,
};
use crate::operands::Operands;

impl Content {
    /// Take a judged command in. What it adds to is the last item.
    pub fn take(&mut self, command: u8, operands: &mut Operands) {
        match command {
            commands::HEAD => {
                self.release = operands.optional();
                self.unreleased = operands.flag();
            }
            commands::CONSTANT => self.push(Constant::read(operands)),
            commands::ALIAS => self.push(Alias::read(operands)),
            commands::ENUM => self.push(Enum::read(operands)),
            commands::VALUE => self.last_enum().values.push(EnumValue::read(operands)),
            commands::BIT_FIELD => self.push(BitField::read(operands)),
            commands::MEMBER => self.last_bit_field().members.push(Member::read(operands)),
            commands::STRUCT => self.push(Struct::read(operands)),
            commands::FAMILY => self.push(Family::read(operands)),
            commands::VARIANT => self.last_family().variants.push(Variant::read(operands)),
            commands::FIELD => self.open_fields().push(Field::read(operands)),
            commands::FIELD_KEY => self.last_field().key = Some(Key::read(operands)),
            commands::KEY => self.push(Key::read(operands)),
            commands::VERSION => self.push(Version::read(operands)),
            _ => {}
        }
    }

    fn push(&mut self, item: impl Into<Item>) {
        self.items.push(item.into());
    }

    fn last_enum(&mut self) -> &mut Enum {
        match self.items.last_mut() {
            Some(Item::Enum(last)) => last,
            other => unreachable!("a value stands after {other:?}"),
        }
    }

    fn last_bit_field(&mut self) -> &mut BitField {
        match self.items.last_mut() {
            Some(Item::BitField(last)) => last,
            other => unreachable!("a member stands after {other:?}"),
        }
    }

    fn last_family(&mut self) -> &mut Family {
        match self.items.last_mut() {
            Some(Item::Family(last)) => last,
            other => unreachable!("a variant stands after {other:?}"),
        }
    }

    /// The fields a 0B adds to: those of the last variant, once there is one.
    fn open_fields(&mut self) -> &mut Vec<Field> {
        match self.items.last_mut() {
            Some(Item::Struct(last)) => &mut last.fields,
            Some(Item::Family(last)) => match last.variants.last_mut() {
                Some(variant) => &mut variant.fields,
                None => &mut last.common_fields,
            },
            other => unreachable!("a field stands after {other:?}"),
        }
    }

    fn last_field(&mut self) -> &mut Field {
        self.open_fields()
            .last_mut()
            .expect("a key stands after a field")
    }
}

// One reader for each item, its operands in the order of document 01.

impl Constant {
    fn read(operands: &mut Operands) -> Self {
        let name = operands.text();
        let is_text = operands.flag();
        let integer = operands.value();
        let text = operands.optional();
        let value = match text {
            Some(text) if is_text => Value::Text(text),
            _ => Value::Integer(integer),
        };
        Constant {
            name,
            value,
            ora_api: operands.flag(),
            first_release: operands.optional(),
        }
    }
}

impl Alias {
    fn read(operands: &mut Operands) -> Self {
        Alias {
            name: operands.text(),
            underlying: operands.text(),
        }
    }
}

impl Enum {
    fn read(operands: &mut Operands) -> Self {
        Enum {
            name: operands.text(),
            size: operands.word(),
            ora_api: operands.flag(),
            first_release: operands.optional(),
            values: Vec::new(),
        }
    }
}

impl EnumValue {
    fn read(operands: &mut Operands) -> Self {
        EnumValue {
            name: operands.text(),
            value: operands.value(),
            first_release: operands.optional(),
        }
    }
}

impl BitField {
    fn read(operands: &mut Operands) -> Self {
        BitField {
            name: operands.text(),
            size: operands.word(),
            first_release: operands.optional(),
            members: Vec::new(),
        }
    }
}

impl Member {
    fn read(operands: &mut Operands) -> Self {
        Member {
            name: operands.text(),
            bit: operands.word(),
            width: operands.number(),
            first_release: operands.optional(),
        }
    }
}

impl Struct {
    fn read(operands: &mut Operands) -> Self {
        Struct {
            name: operands.text(),
            slot: operands.optional(),
            constant: operands.optional(),
            fields: Vec::new(),
        }
    }
}

impl Family {
    fn read(operands: &mut Operands) -> Self {
        Family {
            name: operands.text(),
            discriminant_field: operands.text(),
            discriminant_type: operands.text(),
            param_len_field: operands.text(),
            param_len_type: operands.optional(),
            standalone: operands.flag(),
            common_fields: Vec::new(),
            variants: Vec::new(),
        }
    }
}

impl Variant {
    fn read(operands: &mut Operands) -> Self {
        Variant {
            discriminant: operands.text(),
            fields: Vec::new(),
        }
    }
}

impl Field {
    fn read(operands: &mut Operands) -> Self {
        Field {
            name: operands.text(),
            kind: operands.text(),
            type_: operands.optional(),
            element: operands.optional(),
            count: operands.number(),
            rows: operands.number(),
            cols: operands.number(),
            size: operands.number(),
            key: None,
        }
    }
}

impl Key {
    fn read(operands: &mut Operands) -> Self {
        Key {
            name: operands.text(),
            first_release: operands.optional(),
        }
    }
}

impl Version {
    fn read(operands: &mut Operands) -> Self {
        Version {
            struct_name: operands.text(),
            version: operands.word(),
        }
    }
}
