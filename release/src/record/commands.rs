//! The fifteen commands of document 01 and their operands, in one table that the decoder, the encoder and
//! the text form all follow.

pub const HEAD: u8 = 0x01;
pub const CONSTANT: u8 = 0x02;
pub const ALIAS: u8 = 0x03;
pub const ENUM: u8 = 0x04;
pub const VALUE: u8 = 0x05;
pub const BIT_FIELD: u8 = 0x06;
pub const MEMBER: u8 = 0x07;
pub const STRUCT: u8 = 0x08;
pub const FAMILY: u8 = 0x09;
pub const VARIANT: u8 = 0x0A;
pub const FIELD: u8 = 0x0B;
pub const FIELD_KEY: u8 = 0x0C;
pub const UNSTORED_KEY: u8 = 0x0D;
pub const VERSION: u8 = 0x0E;
pub const END: u8 = 0x0F;

/// The form of an operand; the comment gives its letter in document 01.
#[derive(Clone, Copy, Debug, PartialEq, Eq)]
pub enum Form {
    /// T
    Text,
    /// O
    Optional,
    /// F
    Flag,
    /// N
    Number,
    /// W
    Word,
    /// V
    Value,
}

impl Form {
    pub fn width(self) -> usize {
        match self {
            Form::Text | Form::Optional => 3,
            Form::Flag => 1,
            Form::Number => 5,
            Form::Word => 4,
            Form::Value => 8,
        }
    }

    /// Whether the text form gives the operand by its place, since it is never absent.
    pub fn required(self) -> bool {
        matches!(self, Form::Text | Form::Word | Form::Value)
    }
}

/// An operand: its name, which is its keyword in the text form where it has one, and its form.
#[derive(Debug, PartialEq, Eq)]
pub struct Operand {
    pub name: &'static str,
    pub form: Form,
}

/// A command: its byte, its name in document 01, its word in the text form, and its operands.
#[derive(Debug, PartialEq, Eq)]
pub struct Command {
    pub byte: u8,
    pub name: &'static str,
    pub word: &'static str,
    pub operands: &'static [Operand],
}

impl Command {
    /// The bytes that the command takes in a stream, its own byte included.
    pub fn width(&self) -> usize {
        1 + self.operands.iter().map(|operand| operand.form.width()).sum::<usize>()
    }

    /// Whether the text form gives this operand by its keyword: the head's release and the three operands
    /// that are a constant's value have a way of their own.
    pub fn has_keyword(&self, index: usize) -> bool {
        let own_way = matches!((self.byte, index), (HEAD, 0) | (CONSTANT, 1..=3));
        !own_way && self.operands.get(index).is_some_and(|operand| !operand.form.required())
    }
}

macro_rules! command {
    ($byte:literal $name:literal $word:literal $($operand:literal $form:ident),*) => {
        Command {
            byte: $byte,
            name: $name,
            word: $word,
            operands: &[$(Operand { name: $operand, form: Form::$form }),*],
        }
    };
}

/// All commands, in the order of their bytes.
pub static COMMANDS: [Command; 15] = [
    command!(0x01 "head" "head" "release" Optional, "unreleased" Flag),
    command!(0x02 "constant" "constant"
        "name" Text, "is-text" Flag, "value" Value, "text" Optional, "api" Flag, "since" Optional),
    command!(0x03 "alias" "alias" "name" Text, "underlying type" Text),
    command!(0x04 "enum" "enum" "name" Text, "size" Word, "api" Flag, "since" Optional),
    command!(0x05 "value" "value" "name" Text, "number" Value, "since" Optional),
    command!(0x06 "bit field" "bitfield" "name" Text, "size" Word, "since" Optional),
    command!(0x07 "member" "member" "name" Text, "bit" Word, "width" Number, "since" Optional),
    command!(0x08 "struct" "struct" "name" Text, "slot" Optional, "version" Optional),
    command!(0x09 "family" "family"
        "name" Text, "discriminant field" Text, "discriminant type" Text, "length field" Text,
        "length_type" Optional, "standalone" Flag),
    command!(0x0A "variant" "variant" "discriminant" Text),
    command!(0x0B "field" "field"
        "name" Text, "kind" Text, "type" Optional, "element" Optional,
        "count" Number, "rows" Number, "cols" Number, "size" Number),
    command!(0x0C "plugin key" "key" "name" Text, "since" Optional),
    command!(0x0D "unstored plugin key" "unstored_key" "name" Text, "since" Optional),
    command!(0x0E "version" "version" "struct's name" Text, "number" Word),
    command!(0x0F "end" "end"),
];

pub fn by_byte(byte: u8) -> Option<&'static Command> {
    COMMANDS.iter().find(|command| command.byte == byte)
}

pub fn by_word(word: &[u8]) -> Option<&'static Command> {
    COMMANDS.iter().find(|command| command.word.as_bytes() == word)
}

/// The value of an operand.
#[derive(Clone, Debug, PartialEq, Eq)]
pub enum Value {
    Text(Option<Vec<u8>>),
    Flag(bool),
    Number(Option<u32>),
    Word(u32),
    Value(i64),
}

impl Value {
    /// What an operand of this form is where nothing is said of it.
    pub fn unsaid(form: Form) -> Value {
        match form {
            Form::Text | Form::Optional => Value::Text(None),
            Form::Flag => Value::Flag(false),
            Form::Number => Value::Number(None),
            Form::Word => Value::Word(0),
            Form::Value => Value::Value(0),
        }
    }
}

/// A command with the values of its operands.
#[derive(Clone, Debug, PartialEq, Eq)]
pub struct Said {
    pub command: &'static Command,
    pub values: Vec<Value>,
}

impl Said {
    pub fn unsaid(command: &'static Command) -> Said {
        Said { command, values: command.operands.iter().map(|operand| Value::unsaid(operand.form)).collect() }
    }

    /// The text of an operand, if it has one.
    pub fn text(&self, index: usize) -> Option<&[u8]> {
        match self.values.get(index) {
            Some(Value::Text(text)) => text.as_deref(),
            _ => None,
        }
    }

    pub fn flag(&self, index: usize) -> bool {
        self.values.get(index) == Some(&Value::Flag(true))
    }
}
