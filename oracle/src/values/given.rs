//! Values handed to a deserialiser with their texts lent: the one way into the
//! private parts of the Rust's types.

use serde::Deserialize;
use serde::de::value::{Error, MapDeserializer, SeqDeserializer};
use serde::de::{Deserializer, IntoDeserializer, Visitor};
use serde::forward_to_deserialize_any;

/// A value handed to a deserialiser, its texts lent.
pub enum Given<'a> {
    Absent,
    Flag(bool),
    Number(u32),
    Text(&'a str),
    List(Vec<Given<'a>>),
    Table(Vec<(&'static str, Given<'a>)>),
}

pub fn built<'a, T: Deserialize<'a>>(table: Vec<(&'static str, Given<'a>)>) -> T {
    T::deserialize(Given::Table(table)).expect("the table is a value of this type")
}

impl<'de> IntoDeserializer<'de, Error> for Given<'de> {
    type Deserializer = Self;

    fn into_deserializer(self) -> Self {
        self
    }
}

impl<'de> Deserializer<'de> for Given<'de> {
    type Error = Error;

    fn deserialize_any<V: Visitor<'de>>(self, visitor: V) -> Result<V::Value, Error> {
        match self {
            Given::Absent => visitor.visit_none(),
            Given::Flag(flag) => visitor.visit_bool(flag),
            Given::Number(number) => visitor.visit_u32(number),
            Given::Text(text) => visitor.visit_borrowed_str(text),
            Given::List(list) => visitor.visit_seq(SeqDeserializer::new(list.into_iter())),
            Given::Table(table) => visitor.visit_map(MapDeserializer::new(table.into_iter())),
        }
    }

    fn deserialize_option<V: Visitor<'de>>(self, visitor: V) -> Result<V::Value, Error> {
        match self {
            Given::Absent => visitor.visit_none(),
            given => visitor.visit_some(given),
        }
    }

    forward_to_deserialize_any! {
        bool i8 i16 i32 i64 u8 u16 u32 u64 f32 f64 char str string bytes byte_buf unit
        unit_struct newtype_struct seq tuple tuple_struct map struct enum identifier ignored_any
    }
}
