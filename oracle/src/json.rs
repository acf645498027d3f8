//! A record as the Rust's own types, by deserialising without `Schema::parse`.
//! Keys that a record does not hold get fixed values.

use serde_json::{Value as Json, json};

use crate::model::{
    Alias, BitField, Constant, Content, Enum, Family, Field, Item, Key, Struct, Value, Version,
};
use crate::released::Released;
use crate::schema::Schema;

/// The one id of all plugin keys: `Schema::plugin_keys` sorts by it, and being
/// the same everywhere it leaves them in record order.
pub(crate) const KEY_ID: u32 = 1;

pub fn schema(content: &Content) -> Schema {
    let mut tables = tables(content);
    tables["schema"] = json!({
        "format_version": 2,
        "firmware_release": content.release,
        "name": "",
        "description": "",
        "root_struct": "",
    });
    serde_json::from_value(tables).expect("a readable current record is a Schema")
}

pub fn released(content: &Content) -> Released {
    let mut tables = tables(content);
    tables["schema"] = json!({
        "firmware_release": content.release,
        "unreleased": content.unreleased,
    });
    serde_json::from_value(tables).expect("a readable released record is a Released")
}

/// Every table but `[schema]`, each in record order.
fn tables(content: &Content) -> Json {
    let mut tables = json!({
        "constants": [], "type_aliases": [], "enums": [], "bitfields": [],
        "structs": [], "tagged_fams": [], "plugin_keys": [], "versions": [],
    });
    for item in &content.items {
        let (table, entry) = match item {
            Item::Constant(c) => ("constants", constant(c)),
            Item::Alias(a) => ("type_aliases", alias(a)),
            Item::Enum(e) => ("enums", enumeration(e)),
            Item::BitField(b) => ("bitfields", bit_field(b)),
            Item::Struct(s) => ("structs", structure(s)),
            Item::Family(f) => ("tagged_fams", family(f)),
            Item::Key(k) => ("plugin_keys", unstored_key(k)),
            Item::Version(v) => ("versions", version(v)),
        };
        let list = tables[table].as_array_mut();
        list.expect("each table is a list").push(entry);
    }
    tables
}

fn constant(c: &Constant) -> Json {
    let value = match &c.value {
        Value::Integer(integer) => json!(integer),
        Value::Text(text) => json!(text),
    };
    json!({
        "name": c.name, "type": "", "value": value,
        "ora_api": c.ora_api, "first_release": c.first_release,
    })
}

fn alias(a: &Alias) -> Json {
    json!({ "name": a.name, "underlying": a.underlying })
}

fn enumeration(e: &Enum) -> Json {
    let values: Vec<Json> = (e.values.iter())
        .map(|v| json!({ "name": v.name, "value": v.value, "first_release": v.first_release }))
        .collect();
    json!({
        "name": e.name, "size": e.size, "variants": values,
        "ora_api": e.ora_api, "first_release": e.first_release,
    })
}

fn bit_field(b: &BitField) -> Json {
    let members: Vec<Json> = (b.members.iter())
        .map(|m| {
            json!({
                "name": m.name, "bit": m.bit, "width": m.width,
                "first_release": m.first_release,
            })
        })
        .collect();
    json!({
        "name": b.name, "size": b.size, "first_release": b.first_release, "members": members,
    })
}

fn structure(s: &Struct) -> Json {
    json!({
        "name": s.name, "generate": "none", "generation_slot": s.slot,
        "version_constant": s.constant, "fields": fields(&s.fields),
    })
}

fn family(f: &Family) -> Json {
    let variants: Vec<Json> = (f.variants.iter())
        .map(|v| json!({ "discriminant": v.discriminant, "fields": fields(&v.fields) }))
        .collect();
    json!({
        "name": f.name, "generate": "none", "base_size": 0,
        "discriminant_field": f.discriminant_field,
        "discriminant_type": f.discriminant_type,
        "param_len_field": f.param_len_field,
        "param_len_type": f.param_len_type,
        "standalone": f.standalone,
        "common_fields": fields(&f.common_fields),
        "variants": variants,
    })
}

fn fields(fields: &[Field]) -> Vec<Json> {
    fields.iter().map(field).collect()
}

fn field(f: &Field) -> Json {
    let key = f
        .key
        .as_ref()
        .map(|k| json!({ "name": k.name, "id": KEY_ID, "first_release": k.first_release }));
    json!({
        "name": f.name, "kind": f.kind, "type": f.type_, "element": f.element,
        "count": f.count, "rows": f.rows, "cols": f.cols, "size": f.size,
        "plugin_key": key,
    })
}

fn unstored_key(k: &Key) -> Json {
    json!({ "name": k.name, "id": KEY_ID, "first_release": k.first_release, "comment": "" })
}

fn version(v: &Version) -> Json {
    json!({ "struct_name": v.struct_name, "version": v.version, "first_release": "" })
}
