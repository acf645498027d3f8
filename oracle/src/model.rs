//! What a record says: its items in stream order, texts as strings.

/// Which of the two records of a check one is read as.
#[derive(Clone, Copy, Debug, PartialEq, Eq)]
pub enum Side {
    Current,
    Released,
}

impl Side {
    pub const BOTH: [Side; 2] = [Side::Current, Side::Released];

    /// The side as answers give it.
    pub fn number(self) -> u32 {
        match self {
            Side::Current => 0,
            Side::Released => 1,
        }
    }
}

#[derive(Clone, Debug, Default, PartialEq, Eq)]
pub struct Content {
    pub release: Option<String>,
    pub unreleased: bool,
    pub items: Vec<Item>,
}

#[derive(Clone, Debug, PartialEq, Eq)]
pub enum Item {
    Constant(Constant),
    Alias(Alias),
    Enum(Enum),
    BitField(BitField),
    Struct(Struct),
    Family(Family),
    Key(Key),
    Version(Version),
}

#[derive(Clone, Debug, PartialEq, Eq)]
pub struct Constant {
    pub name: String,
    pub value: Value,
    pub ora_api: bool,
    pub first_release: Option<String>,
}

#[derive(Clone, Debug, PartialEq, Eq)]
pub enum Value {
    Integer(i64),
    Text(String),
}

#[derive(Clone, Debug, PartialEq, Eq)]
pub struct Alias {
    pub name: String,
    pub underlying: String,
}

#[derive(Clone, Debug, PartialEq, Eq)]
pub struct Enum {
    pub name: String,
    pub size: u32,
    pub ora_api: bool,
    pub first_release: Option<String>,
    pub values: Vec<EnumValue>,
}

#[derive(Clone, Debug, PartialEq, Eq)]
pub struct EnumValue {
    pub name: String,
    pub value: i64,
    pub first_release: Option<String>,
}

#[derive(Clone, Debug, PartialEq, Eq)]
pub struct BitField {
    pub name: String,
    pub size: u32,
    pub first_release: Option<String>,
    pub members: Vec<Member>,
}

#[derive(Clone, Debug, PartialEq, Eq)]
pub struct Member {
    pub name: String,
    pub bit: u32,
    pub width: Option<u32>,
    pub first_release: Option<String>,
}

#[derive(Clone, Debug, PartialEq, Eq)]
pub struct Struct {
    pub name: String,
    pub slot: Option<String>,
    pub constant: Option<String>,
    pub fields: Vec<Field>,
}

#[derive(Clone, Debug, PartialEq, Eq)]
pub struct Family {
    pub name: String,
    pub discriminant_field: String,
    pub discriminant_type: String,
    pub param_len_field: String,
    pub param_len_type: Option<String>,
    pub standalone: bool,
    pub common_fields: Vec<Field>,
    pub variants: Vec<Variant>,
}

#[derive(Clone, Debug, PartialEq, Eq)]
pub struct Variant {
    pub discriminant: String,
    pub fields: Vec<Field>,
}

#[derive(Clone, Debug, Default, PartialEq, Eq)]
pub struct Field {
    pub name: String,
    pub kind: String,
    pub type_: Option<String>,
    pub element: Option<String>,
    pub count: Option<u32>,
    pub rows: Option<u32>,
    pub cols: Option<u32>,
    pub size: Option<u32>,
    pub key: Option<Key>,
}

#[derive(Clone, Debug, PartialEq, Eq)]
pub struct Key {
    pub name: String,
    pub first_release: Option<String>,
}

#[derive(Clone, Debug, PartialEq, Eq)]
pub struct Version {
    pub struct_name: String,
    pub version: u32,
}

/// Walks over the items of one sort, in stream order.
macro_rules! walk {
    ($($walk:ident, $walk_mut:ident: $item:ident;)*) => {
        impl Content {
            $(
                pub fn $walk(&self) -> impl Iterator<Item = &$item> {
                    self.items.iter().filter_map(|item| match item {
                        Item::$item(inside) => Some(inside),
                        _ => None,
                    })
                }

                pub fn $walk_mut(&mut self) -> impl Iterator<Item = &mut $item> {
                    self.items.iter_mut().filter_map(|item| match item {
                        Item::$item(inside) => Some(inside),
                        _ => None,
                    })
                }
            )*
        }

        $(
            impl From<$item> for Item {
                fn from(inside: $item) -> Self {
                    Item::$item(inside)
                }
            }
        )*
    };
}

walk! {
    constants, constants_mut: Constant;
    aliases, aliases_mut: Alias;
    enums, enums_mut: Enum;
    bit_fields, bit_fields_mut: BitField;
    structs, structs_mut: Struct;
    families, families_mut: Family;
    keys, keys_mut: Key;
}

impl From<Version> for Item {
    fn from(inside: Version) -> Self {
        Item::Version(inside)
    }
}
