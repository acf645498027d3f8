//! Where a command may stand.

use crate::record::commands::{
    BIT_FIELD, END, ENUM, FAMILY, FIELD, FIELD_KEY, HEAD, MEMBER, STRUCT, VALUE, VARIANT,
};

/// What a field may be added to.
#[derive(Clone, Copy, PartialEq, Eq)]
enum Open {
    Nothing,
    Struct,
    Family,
    Variant,
}

/// The place after the commands so far.
pub struct Place {
    previous: Option<u8>,
    open: Open,
}

impl Place {
    pub fn start() -> Place {
        Place { previous: None, open: Open::Nothing }
    }

    pub fn at_start(&self) -> bool {
        self.previous.is_none()
    }

    /// What the text still has to say when it is at its end.
    pub fn lacks(&self) -> Option<&'static str> {
        match self.previous {
            None => Some("expected `head`, and the text is at its end"),
            Some(END) => None,
            Some(_) => Some("expected `end`, and the text is at its end"),
        }
    }

    /// The place after one more command, or where that command stands instead.
    pub fn step(&mut self, byte: u8) -> Result<(), &'static str> {
        if let Some(wrong) = self.wrong(byte) {
            return Err(wrong);
        }
        self.previous = Some(byte);
        self.open = match byte {
            STRUCT => Open::Struct,
            FAMILY => Open::Family,
            VARIANT => Open::Variant,
            FIELD | FIELD_KEY => self.open,
            _ => Open::Nothing,
        };
        Ok(())
    }

    fn wrong(&self, byte: u8) -> Option<&'static str> {
        let Some(previous) = self.previous else {
            return (byte != HEAD).then_some("expected `head`, which is the first command");
        };
        let (right, rule) = match byte {
            _ if previous == END => (false, "expected nothing after `end`"),
            HEAD => (false, "expected another command, since `head` stands once, at the front"),
            VALUE => {
                let right = matches!(previous, ENUM | VALUE);
                (right, "expected another command, since a `value` stands after an `enum` or a `value`")
            }
            MEMBER => {
                let right = matches!(previous, BIT_FIELD | MEMBER);
                (right, "expected another command, since a `member` stands after a `bitfield` or a `member`")
            }
            VARIANT => {
                let right = matches!(self.open, Open::Family | Open::Variant);
                (right, "expected another command, since a `variant` stands in a `family`")
            }
            FIELD => {
                let right = self.open != Open::Nothing;
                (right, "expected another command, since a `field` stands in a `struct`, a `family` or a `variant`")
            }
            FIELD_KEY => {
                let right = previous == FIELD;
                (right, "expected another command, since a `key` stands right after a `field`")
            }
            _ => (true, ""),
        };
        (!right).then_some(rule)
    }

    /// How far the last command is indented, by what it stands in.
    pub fn depth(&self) -> usize {
        let of_field = if self.open == Open::Variant { 2 } else { 1 };
        match self.previous {
            Some(VALUE | MEMBER | VARIANT) => 1,
            Some(FIELD) => of_field,
            Some(FIELD_KEY) => of_field + 1,
            _ => 0,
        }
    }
}
