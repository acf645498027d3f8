//! The commands of document 01: bytes, operands and their widths.

pub const HEAD: u8 = 0x01;
pub const CONSTANT: u8 = 0x02;
pub const ALIAS: u8 = 0x03;
pub const ENUM: u8 = 0x04;
pub const VALUE: u8 = 0x05;
pub const BIT_FIELD: u8 = 0x06;
pub const MEMBER: u8 = 0x07;
pub const STRUCT: u8 = 0x08;
pub const FAMILY: u8 = 0x09;
pub const VARIANT: u8 = 0x0A;
pub const FIELD: u8 = 0x0B;
pub const FIELD_KEY: u8 = 0x0C;
pub const KEY: u8 = 0x0D;
pub const VERSION: u8 = 0x0E;
pub const END: u8 = 0x0F;

/// One operand's form, by its letter in document 01.
#[derive(Clone, Copy, Debug, PartialEq, Eq)]
pub enum Form {
    /// T
    Text,
    /// O
    Optional,
    /// O!
    Demanded,
    /// F
    Flag,
    /// N
    Number,
    /// W
    Word,
    /// V
    Value,
}

impl Form {
    pub fn width(self) -> usize {
        match self {
            Form::Text | Form::Optional | Form::Demanded => 3,
            Form::Flag => 1,
            Form::Number => 5,
            Form::Word => 4,
            Form::Value => 8,
        }
    }

    pub fn is_text(self) -> bool {
        matches!(self, Form::Text | Form::Optional | Form::Demanded)
    }

    /// Whether the operand's first byte is a flag.
    pub fn has_flag(self) -> bool {
        matches!(self, Form::Flag | Form::Number)
    }
}

/// The operands of a command, or none for a byte that is no command.
pub fn operands(command: u8) -> Option<&'static [Form]> {
    use Form::*;
    Some(match command {
        HEAD => &[Demanded, Flag],
        CONSTANT => &[Text, Flag, Value, Optional, Flag, Optional],
        ALIAS => &[Text, Text],
        ENUM => &[Text, Word, Flag, Optional],
        VALUE => &[Text, Value, Optional],
        BIT_FIELD => &[Text, Word, Demanded],
        MEMBER => &[Text, Word, Number, Optional],
        STRUCT => &[Text, Optional, Optional],
        FAMILY => &[Text, Text, Text, Text, Optional, Flag],
        VARIANT => &[Text],
        FIELD => &[
            Text, Text, Optional, Optional, Number, Number, Number, Number,
        ],
        FIELD_KEY | KEY => &[Text, Demanded],
        VERSION => &[Text, Word],
        END => &[],
        _ => return None,
    })
}

/// The width of a command with these operands, its own byte included.
pub fn width(operands: &[Form]) -> usize {
    1 + operands.iter().map(|form| form.width()).sum::<usize>()
}
