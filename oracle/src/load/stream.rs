//! The commands of document 01 that a pair has, as bytes.

use super::pool::{ABSENT, Text, text};

/// A field's operands.
#[derive(Clone, Copy, Debug)]
pub struct Field {
    pub name: Text,
    pub kind: Text,
    pub typ: Text,
    pub element: Text,
    pub count: Option<u32>,
    pub rows: Option<u32>,
    pub cols: Option<u32>,
    pub size: Option<u32>,
}

impl Field {
    pub fn new(name: Text, kind: &str) -> Self {
        Field {
            name,
            kind: text(kind),
            typ: ABSENT,
            element: ABSENT,
            count: None,
            rows: None,
            cols: None,
            size: None,
        }
    }

    pub fn typed(name: Text, kind: &str, typ: Text) -> Self {
        Field {
            typ,
            ..Field::new(name, kind)
        }
    }

    pub fn element(name: Text, kind: &str, element: Text) -> Self {
        Field {
            element,
            ..Field::new(name, kind)
        }
    }
}

/// A stream that is being written.
#[derive(Debug, Default)]
pub struct Stream {
    bytes: Vec<u8>,
}

impl Stream {
    pub fn byte(&mut self, byte: u8) {
        self.bytes.push(byte);
    }

    pub fn text(&mut self, (start, length): Text) {
        self.bytes.extend(start.to_le_bytes());
        self.byte(length);
    }

    pub fn number(&mut self, number: u32) {
        self.bytes.extend(number.to_le_bytes());
    }

    pub fn value(&mut self, value: i64) {
        self.bytes.extend(value.to_le_bytes());
    }

    pub fn optional(&mut self, number: Option<u32>) {
        self.byte(number.is_some().into());
        self.number(number.unwrap_or(0));
    }

    pub fn head(&mut self, release: Text) {
        self.byte(1);
        self.text(release);
        self.byte(0);
    }

    pub fn integer(&mut self, name: Text, value: u32, api: bool, since: Text) {
        self.byte(2);
        self.text(name);
        self.byte(0);
        self.value(value.into());
        self.text(ABSENT);
        self.byte(api.into());
        self.text(since);
    }

    pub fn version(&mut self, name: Text, number: u32) {
        self.byte(14);
        self.text(name);
        self.number(number);
    }

    pub fn field(&mut self, field: &Field) {
        self.byte(11);
        for text in [field.name, field.kind, field.typ, field.element] {
            self.text(text);
        }
        for number in [field.count, field.rows, field.cols, field.size] {
            self.optional(number);
        }
    }

    pub fn structure(&mut self, name: Text, slot: Text, version: Text, fields: &[Field]) {
        self.byte(8);
        self.text(name);
        self.text(slot);
        self.text(version);
        fields.iter().for_each(|field| self.field(field));
    }

    pub fn end(mut self) -> Vec<u8> {
        self.byte(15);
        self.bytes
    }
}
