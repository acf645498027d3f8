//! A current record as a `Schema`.

use super::given::{Given, built};
use super::value;
use crate::json::KEY_ID;
use crate::model::{self, Content, Item};
use crate::schema::{
    Bitfield, BitfieldMember, Constant, Enum, EnumVariant, Field, Generate, PluginKey, Schema,
    SchemaMetadata, Struct, StructVersion, TaggedFam, TaggedFamVariant, TypeAlias,
    UnstoredPluginKey,
};

pub fn schema(content: &Content) -> Schema {
    let mut schema = Schema {
        source: String::new(),
        schema: head(
            content
                .release
                .as_deref()
                .expect("a current record has a release"),
        ),
        versions: Vec::new(),
        constants: Vec::new(),
        type_aliases: Vec::new(),
        enums: Vec::new(),
        bitfields: Vec::new(),
        structs: Vec::new(),
        tagged_fams: Vec::new(),
        simple_fams: Vec::new(),
        unstored_keys: Vec::new(),
    };
    for item in &content.items {
        match item {
            Item::Constant(c) => schema.constants.push(constant(c)),
            Item::Alias(a) => schema.type_aliases.push(alias(a)),
            Item::Enum(e) => schema.enums.push(enumeration(e)),
            Item::BitField(b) => schema.bitfields.push(bit_field(b)),
            Item::Struct(s) => schema.structs.push(structure(s)),
            Item::Family(f) => schema.tagged_fams.push(family(f)),
            Item::Key(k) => schema.unstored_keys.push(unstored_key(k)),
            Item::Version(v) => schema.versions.push(version(v)),
        }
    }
    schema
}

fn head(release: &str) -> SchemaMetadata {
    built(vec![
        ("format_version", Given::Number(2)),
        ("firmware_release", Given::Text(release)),
        ("name", Given::Text("")),
        ("description", Given::Text("")),
        ("root_struct", Given::Text("")),
    ])
}

fn constant(c: &model::Constant) -> Constant {
    Constant {
        name: c.name.clone(),
        type_: String::new(),
        value: value(c),
        comment: None,
        ora_api: c.ora_api,
        linker_script: false,
        first_release: c.first_release.clone(),
        deprecated_release: None,
    }
}

fn alias(a: &model::Alias) -> TypeAlias {
    TypeAlias {
        name: a.name.clone(),
        underlying: a.underlying.clone(),
        comment: None,
    }
}

fn enumeration(e: &model::Enum) -> Enum {
    Enum {
        name: e.name.clone(),
        size: e.size,
        packed: None,
        comment: None,
        strip_prefix: None,
        source: None,
        variants: e.values.iter().map(enum_value).collect(),
        aliases: Vec::new(),
        ora_api: e.ora_api,
        first_release: e.first_release.clone(),
        non_exhaustive: false,
    }
}

fn enum_value(v: &model::EnumValue) -> EnumVariant {
    EnumVariant {
        name: v.name.clone(),
        value: v.value,
        sentinel: None,
        comment: None,
        display: None,
        deprecated_release: None,
        first_release: v.first_release.clone(),
    }
}

fn bit_field(b: &model::BitField) -> Bitfield {
    Bitfield {
        name: b.name.clone(),
        size: b.size,
        comment: None,
        strip_prefix: None,
        ora_api: false,
        first_release: demanded(&b.first_release),
        members: b.members.iter().map(member).collect(),
    }
}

fn member(m: &model::Member) -> BitfieldMember {
    BitfieldMember {
        name: m.name.clone(),
        bit: m.bit,
        width: m.width,
        type_: None,
        first_release: m.first_release.clone(),
        deprecated_release: None,
        comment: None,
    }
}

/// A text that a current record is not read without.
fn demanded(text: &Option<String>) -> String {
    text.clone().expect("a current record has this text")
}

fn structure(s: &model::Struct) -> Struct {
    Struct {
        name: s.name.clone(),
        comment: None,
        generate: Generate::Skip,
        size: None,
        root: None,
        const_fields: None,
        version_field: None,
        version_constant: s.constant.clone(),
        generation_slot: s.slot.clone(),
        fields: s.fields.iter().map(field).collect(),
    }
}

fn family(f: &model::Family) -> TaggedFam {
    TaggedFam {
        name: f.name.clone(),
        comment: None,
        generate: Generate::Skip,
        discriminant_field: f.discriminant_field.clone(),
        discriminant_type: f.discriminant_type.clone(),
        param_len_field: f.param_len_field.clone(),
        param_len_type: f.param_len_type.clone(),
        base_size: 0,
        standalone: f.standalone,
        non_exhaustive: false,
        common_fields: f.common_fields.iter().map(field).collect(),
        variants: f.variants.iter().map(variant).collect(),
    }
}

fn variant(v: &model::Variant) -> TaggedFamVariant {
    TaggedFamVariant {
        discriminant: v.discriminant.clone(),
        comment: None,
        params_len_constant: None,
        fields: v.fields.iter().map(field).collect(),
    }
}

fn field(f: &model::Field) -> Field {
    Field {
        name: f.name.clone(),
        kind: f.kind.clone(),
        type_: f.type_.clone(),
        element: f.element.clone(),
        count: f.count,
        count_ref: None,
        rows: f.rows,
        cols: f.cols,
        rows_ref: None,
        cols_ref: None,
        nullable: None,
        count_field: None,
        pointed_type: None,
        const_ptr: None,
        size: f.size,
        expected_offset: None,
        comment: None,
        expected_const: None,
        none_on_parse_error: None,
        plugin_key: f.key.as_ref().map(field_key),
        since_info_version: None,
        since_metadata_version: None,
        since_runtime_version: None,
        default_if_absent: None,
        deprecated_info_version: None,
        deprecated_metadata_version: None,
        deprecated_runtime_version: None,
    }
}

fn field_key(k: &model::Key) -> PluginKey {
    PluginKey {
        name: k.name.clone(),
        id: KEY_ID,
        first_release: demanded(&k.first_release),
    }
}

fn unstored_key(k: &model::Key) -> UnstoredPluginKey {
    UnstoredPluginKey {
        name: k.name.clone(),
        id: KEY_ID,
        first_release: demanded(&k.first_release),
        type_: None,
        element: None,
        comment: String::new(),
    }
}

fn version(v: &model::Version) -> StructVersion {
    StructVersion {
        struct_name: v.struct_name.clone(),
        version: v.version,
        first_release: String::new(),
    }
}
