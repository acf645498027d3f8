//! Number 9, in exact arithmetic: every type of the record in stream order,
//! whether or not a later one of its name replaces it.

use crate::model::{Content, Family, Field, Item};
use crate::reader::Record;
use crate::schema::prim_size;

pub const EXTENT_LIMIT: u128 = 4_294_967_295;

/// The place of the command opening the first type that has a field of too
/// great a size or end.
pub fn first_vast(record: &Record) -> Option<usize> {
    extents(&record.content)
        .into_iter()
        .zip(&record.opened)
        .find(|(end, _)| *end > EXTENT_LIMIT)
        .map(|(_, &place)| place)
}

/// The end of each type's last field, in the order of 08, 09 and 0A. Sizes are
/// never negative, so this is the greatest end and no size exceeds it.
pub fn extents(content: &Content) -> Vec<u128> {
    let mut ends = Vec::new();
    for item in &content.items {
        match item {
            Item::Struct(s) => ends.push(fields_size(&s.fields, content)),
            Item::Family(family) => {
                let front = front_size(family, content);
                ends.push(front + fields_size(&family.common_fields, content));
                for variant in &family.variants {
                    ends.push(fields_size(&variant.fields, content));
                }
            }
            _ => {}
        }
    }
    ends
}

fn fields_size(fields: &[Field], content: &Content) -> u128 {
    fields.iter().map(|field| field_size(field, content)).sum()
}

/// The discriminant and the length that a family's layout begins with.
fn front_size(family: &Family, content: &Content) -> u128 {
    let length = family.param_len_type.as_deref().unwrap_or("u8");
    enum_size(Some(&family.discriminant_type), content) + primitive(Some(length))
}

/// `shape_size` of schema.rs, without its overflow.
fn field_size(field: &Field, content: &Content) -> u128 {
    let type_ = field.type_.as_deref();
    let times = |n: Option<u32>| u128::from(n.unwrap_or(0));
    match field.kind.as_str() {
        "scalar" => primitive(type_),
        "enum" => enum_size(type_, content),
        "type_alias" => alias_size(type_, content),
        "bitfield" => bit_field_size(type_, content),
        "inline_array" => primitive(field.element.as_deref()) * times(field.count),
        "inline_array2d" => {
            primitive(field.element.as_deref()) * times(field.rows) * times(field.cols)
        }
        "padding" => times(field.size),
        kind if crate::schema::POINTER_KINDS.contains(&kind) => 4,
        _ => 0,
    }
}

fn primitive(word: Option<&str>) -> u128 {
    prim_size(word.unwrap_or("u8")) as u128
}

fn enum_size(name: Option<&str>, content: &Content) -> u128 {
    name.and_then(|name| content.enums().find(|e| e.name == name))
        .map_or(1, |e| e.size.into())
}

fn alias_size(name: Option<&str>, content: &Content) -> u128 {
    name.and_then(|name| content.aliases().find(|a| a.name == name))
        .map_or(2, |a| primitive(Some(&a.underlying)))
}

fn bit_field_size(name: Option<&str>, content: &Content) -> u128 {
    name.and_then(|name| content.bit_fields().find(|b| b.name == name))
        .map_or(0, |b| b.size.into())
}
