//! A released record as a `Released`.

use super::given::{Given, built};
use super::value;
use crate::model::{self, Content, Item};
use crate::released::{
    Released, ReleasedAlias, ReleasedBitfield, ReleasedBitfieldMember, ReleasedConstant,
    ReleasedEnum, ReleasedEnumVariant, ReleasedField, ReleasedPluginKey, ReleasedStruct,
    ReleasedTaggedFam, ReleasedVariant,
};

pub fn released(content: &Content) -> Released {
    let keys = content.keys().map(given_key).collect();
    let schema = vec![
        (
            "firmware_release",
            content
                .release
                .as_deref()
                .map_or(Given::Absent, Given::Text),
        ),
        ("unreleased", Given::Flag(content.unreleased)),
    ];
    let parts = vec![
        ("schema", Given::Table(schema)),
        ("plugin_keys", Given::List(keys)),
    ];
    let mut copy: Released = built(parts);
    for item in &content.items {
        match item {
            Item::Constant(c) => copy.constants.push(released_constant(c)),
            Item::Alias(a) => copy.type_aliases.push(ReleasedAlias {
                name: a.name.clone(),
                underlying: a.underlying.clone(),
            }),
            Item::Enum(e) => copy.enums.push(released_enum(e)),
            Item::BitField(b) => copy.bitfields.push(released_bit_field(b)),
            Item::Struct(s) => copy.structs.push(ReleasedStruct {
                name: s.name.clone(),
                fields: s.fields.iter().map(released_field).collect(),
            }),
            Item::Family(f) => copy.tagged_fams.push(released_family(f)),
            Item::Key(_) | Item::Version(_) => {}
        }
    }
    copy
}

fn given_key(k: &model::Key) -> Given<'_> {
    Given::Table(vec![
        ("name", Given::Text(&k.name)),
        (
            "first_release",
            k.first_release
                .as_deref()
                .map_or(Given::Absent, Given::Text),
        ),
    ])
}

fn released_constant(c: &model::Constant) -> ReleasedConstant {
    ReleasedConstant {
        name: c.name.clone(),
        value: value(c),
        ora_api: c.ora_api,
        first_release: c.first_release.clone(),
    }
}

fn released_enum(e: &model::Enum) -> ReleasedEnum {
    let value = |v: &model::EnumValue| ReleasedEnumVariant {
        name: v.name.clone(),
        value: v.value,
        first_release: v.first_release.clone(),
    };
    ReleasedEnum {
        name: e.name.clone(),
        size: e.size,
        variants: e.values.iter().map(value).collect(),
        ora_api: e.ora_api,
        first_release: e.first_release.clone(),
    }
}

fn released_bit_field(b: &model::BitField) -> ReleasedBitfield {
    let member = |m: &model::Member| ReleasedBitfieldMember {
        name: m.name.clone(),
        bit: m.bit,
        width: m.width,
        first_release: m.first_release.clone(),
    };
    ReleasedBitfield {
        name: b.name.clone(),
        size: b.size,
        first_release: b.first_release.clone(),
        members: b.members.iter().map(member).collect(),
    }
}

fn released_family(f: &model::Family) -> ReleasedTaggedFam {
    let variant = |v: &model::Variant| ReleasedVariant {
        discriminant: v.discriminant.clone(),
        fields: v.fields.iter().map(released_field).collect(),
    };
    ReleasedTaggedFam {
        name: f.name.clone(),
        discriminant_field: f.discriminant_field.clone(),
        discriminant_type: f.discriminant_type.clone(),
        param_len_field: f.param_len_field.clone(),
        param_len_type: f.param_len_type.clone(),
        standalone: f.standalone,
        common_fields: f.common_fields.iter().map(released_field).collect(),
        variants: f.variants.iter().map(variant).collect(),
    }
}

fn released_field(f: &model::Field) -> ReleasedField {
    let key = |k: &model::Key| ReleasedPluginKey {
        name: k.name.clone(),
        first_release: k.first_release.clone(),
    };
    ReleasedField {
        name: f.name.clone(),
        kind: f.kind.clone(),
        type_: f.type_.clone(),
        element: f.element.clone(),
        count: f.count,
        rows: f.rows,
        cols: f.cols,
        size: f.size,
        plugin_key: f.key.as_ref().map(key),
    }
}
