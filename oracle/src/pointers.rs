//! The check of pointers: request W-212 of document 02, over the Rust's own
//! `referenced_type`.

use crate::answers::{Answer, as_u32};
use crate::json;
use crate::model::{Content, Item, Side};
use crate::reader::read;
use crate::schema::{Field, Schema};

/// A pointer that names neither a structure nor a family.
pub const NEITHER: u32 = 59;
/// A pointer that names only the other of the two.
pub const OTHER: u32 = 60;

/// Whether the pointers of a current record name what they must.
pub fn pointers(stream: &[u8], pool: &[u8]) -> Answer {
    let record = match read(Side::Current, stream, pool) {
        Ok(record) => record,
        Err(refusal) => return Answer::refused(refusal, Side::Current),
    };
    let schema = json::schema(&record.content);
    let fields = in_stream_order(&record.content, &schema);
    assert_eq!(fields.len(), record.fields.len(), "each field has its 0B");
    let mut faults = fields
        .iter()
        .zip(&record.fields)
        .filter_map(|(field, &place)| {
            let number = fault(field, &schema)?;
            Some(Answer {
                number,
                place: as_u32(place),
                ..Answer::default()
            })
        });
    faults.next().unwrap_or_default()
}

/// Every field of the structures, families and variants, as the stream has
/// them. The schema has the structures and the families in two lists.
fn in_stream_order<'s>(content: &Content, schema: &'s Schema) -> Vec<&'s Field> {
    let mut structs = schema.structs.iter();
    let mut families = schema.tagged_fams.iter();
    let mut fields = Vec::new();
    for item in &content.items {
        match item {
            Item::Struct(_) => fields.extend(&structs.next().expect("a structure each").fields),
            Item::Family(_) => {
                let family = families.next().expect("a family each");
                fields.extend(&family.common_fields);
                fields.extend(family.variants.iter().flat_map(|v| &v.fields));
            }
            _ => {}
        }
    }
    fields
}

/// The number of a field that breaks the rule.
fn fault(field: &Field, schema: &Schema) -> Option<u32> {
    let name = field.referenced_type();
    let a_struct = schema.structs.iter().any(|s| Some(s.name.as_str()) == name);
    let a_family = (schema.tagged_fams.iter()).any(|f| Some(f.name.as_str()) == name);
    let (right, other) = match field.kind.as_str() {
        "struct_ptr" | "struct_array_ptr" | "struct_ptr_array_ptr" => (a_struct, a_family),
        "tagged_fam_ptr" => (a_family, a_struct),
        _ => return None,
    };
    match (right, other) {
        (true, _) => None,
        (false, true) => Some(OTHER),
        (false, false) => Some(NEITHER),
    }
}
