//! Fixed records for the check of pointers: the findings on W-212.

use crate::generate::encode::{Encoded, encode_spread, encode_tight};
use crate::generate::make::{
    alias, array, bit_field, content, enumeration, family, field, integer, key, pointer, scalar,
    structure, version,
};
use crate::generate::words::{PLAIN_KINDS, POINTERS};
use crate::model::{Content, Field, Item};

/// A record to be asked whether its pointers name what they must.
#[derive(Clone, Debug)]
pub struct FixedRecord {
    pub label: &'static str,
    pub record: Encoded,
}

pub fn records() -> Vec<FixedRecord> {
    let mut records = refusals();
    records.extend(orders());
    records.extend(longs());
    records.extend(operands());
    records.extend(empties());
    records.extend(declarations());
    records.extend(both());
    records.extend(kinds());
    records
}

fn of(label: &'static str, content: Content) -> FixedRecord {
    FixedRecord {
        label,
        record: encode_spread(&content),
    }
}

/// A record of a structure `s` with this field, after these items.
fn one(label: &'static str, field: Field, items: &[Item]) -> FixedRecord {
    let mut content = plain();
    content.items.extend_from_slice(items);
    of(label, content.with(structure("s").field(field)))
}

fn plain() -> Content {
    content("0.9.0")
}

fn to_family(name: &str) -> Field {
    field("p", "tagged_fam_ptr").of(name)
}

/// A field that points at nothing.
fn gone() -> Field {
    pointer("p", "gone")
}

/// W-212.1: refusals come first, and the place is that of the field's command.
fn refusals() -> Vec<FixedRecord> {
    let broken = || plain().with(structure("s").field(gone()));
    let hurt = |label, hurt: &dyn Fn(&mut Encoded)| {
        let mut record = encode_spread(&broken());
        hurt(&mut record);
        FixedRecord { label, record }
    };
    vec![
        of("w212.1 a vast type after the broken pointer", {
            let vast = structure("t").field(array("x", "u32", 0x4000_0000));
            broken().with(vast)
        }),
        hurt("w212.1 a cut stream after the broken pointer", &|r| {
            r.stream.pop();
        }),
        hurt("w212.1 a byte after the end", &|r| r.stream.push(0x0F)),
        hurt("w212.1 an unknown command after the broken pointer", &|r| {
            *r.stream.last_mut().expect("it ends") = 0x77;
        }),
        hurt("w212.1 a bad letter", &|r| r.pool.push(0x7F)),
        hurt("w212.1 a pool that is too short", &|r| {
            r.pool.pop();
        }),
        hurt("w212.1 a pool that is too long", &|r| {
            r.pool.resize(16_385, b' ')
        }),
        hurt("w212.1 a flag of 2", &|r| r.stream[4] = 2),
        of("w212.1 a release that is missing", {
            broken().without_release()
        }),
        of("w212.1 the field's command and not its key", {
            let fine = scalar("n", "u8").keyed("k", "0.8.0");
            let s = structure("s").field(fine).field(gone().keyed("k", "0.8.0"));
            plain().with(s)
        }),
        of("w212.1 an unreleased record", broken().unreleased()),
        of("w212.1 an empty record", plain()),
    ]
}

/// W-212.2: the first by its place, whichever number it has, and all fields
/// count.
fn orders() -> Vec<FixedRecord> {
    let named = |name| structure(name).field(scalar("n", "u8"));
    vec![
        of("w212.2 a family before a structure", {
            let f = family("f").common(gone());
            plain()
                .with(f)
                .with(structure("s").field(pointer("p", "f")))
        }),
        of("w212.2 a structure before a family", {
            let s = structure("s").field(pointer("p", "f"));
            plain().with(s).with(family("f").common(gone()))
        }),
        of("w212.2 59 before 60", {
            let s = structure("s").field(gone()).field(pointer("q", "f"));
            plain().with(s).with(family("f"))
        }),
        of("w212.2 60 before 59", {
            let s = structure("s").field(pointer("q", "f")).field(gone());
            plain().with(s).with(family("f"))
        }),
        of("w212.2 a name later in byte order stands first", {
            let (z, a) = (structure("z"), structure("a"));
            plain().with(z.field(to_family("a"))).with(a.field(gone()))
        }),
        of("w212.2 a family's common field", {
            plain().with(family("f").common(gone()).variant("v", &[]))
        }),
        of("w212.2 a variant's field", {
            plain().with(family("f").variant("v", &[scalar("n", "u8"), gone()]))
        }),
        of("w212.2 the field of a second variant", {
            let f = family("f").variant("v", &[to_family("f")]);
            plain().with(f.variant("w", &[gone()]))
        }),
        of("w212.2 a structure that a later one replaces", {
            plain().with(structure("s").field(gone())).with(named("s"))
        }),
        of("w212.2 a structure that replaces an earlier one", {
            plain().with(named("s")).with(structure("s").field(gone()))
        }),
        of("w212.2 a structure that a family of its name replaces", {
            plain().with(structure("f").field(gone())).with(family("f"))
        }),
        of("w212.2 a variant that a later one replaces", {
            let f = family("f").variant("v", &[gone()]);
            plain().with(f.variant("v", &[]))
        }),
        of("w212.2 a family that a later one replaces", {
            plain().with(family("f").common(gone())).with(family("f"))
        }),
    ]
}

/// W-212.2 again, in streams a little under and over 2,048 bytes, and in the
/// longest.
fn longs() -> Vec<FixedRecord> {
    let many = |label, count: usize, last: Field| {
        let mut s = structure("s");
        s.fields = vec![pointer("p", "s"); count - 1];
        let record = encode_tight(&plain().with(s.field(last)));
        FixedRecord { label, record }
    };
    vec![
        many("w212.2 a stream of 2029 bytes", 61, gone()),
        many("w212.2 a stream of 2062 bytes", 62, gone()),
        many("w212.2 the last of 992 fields", 992, gone()),
        many("w212.2 992 fields that are right", 992, pointer("p", "s")),
    ]
}

/// W-212.3: which operand names.
fn operands() -> Vec<FixedRecord> {
    let of_kind = |kind: &str| field("p", kind);
    let (s, f) = ([Item::from(structure("t"))], [Item::from(family("f"))]);
    let both = [s.clone(), f.clone()].concat();
    vec![
        one("w212.3 struct_ptr by its type", pointer("p", "t"), &s),
        one(
            "w212.3 struct_ptr with an element alone",
            of_kind("struct_ptr").each("t"),
            &s,
        ),
        one(
            "w212.3 struct_ptr whose element is right",
            pointer("p", "gone").each("t"),
            &s,
        ),
        one(
            "w212.3 struct_ptr whose element is a family",
            pointer("p", "t").each("f"),
            &both,
        ),
        one(
            "w212.3 struct_array_ptr by its element",
            of_kind("struct_array_ptr").each("t"),
            &s,
        ),
        one(
            "w212.3 struct_array_ptr with a type alone",
            of_kind("struct_array_ptr").of("t"),
            &s,
        ),
        one(
            "w212.3 struct_array_ptr whose type is a family",
            of_kind("struct_array_ptr").of("f").each("t"),
            &both,
        ),
        one(
            "w212.3 struct_array_ptr whose element is a family",
            of_kind("struct_array_ptr").of("t").each("f"),
            &both,
        ),
        one(
            "w212.3 struct_ptr_array_ptr by its element",
            of_kind("struct_ptr_array_ptr").each("t"),
            &s,
        ),
        one(
            "w212.3 struct_ptr_array_ptr with a type alone",
            of_kind("struct_ptr_array_ptr").of("t"),
            &s,
        ),
        one(
            "w212.3 struct_ptr_array_ptr whose element is a family",
            of_kind("struct_ptr_array_ptr").of("t").each("f"),
            &both,
        ),
        one("w212.3 tagged_fam_ptr by its type", to_family("f"), &f),
        one(
            "w212.3 tagged_fam_ptr with an element alone",
            of_kind("tagged_fam_ptr").each("f"),
            &f,
        ),
        one(
            "w212.3 tagged_fam_ptr whose element is right",
            to_family("s").each("f"),
            &f,
        ),
    ]
}

/// W-212.4: no name, and the empty one.
fn empties() -> Vec<FixedRecord> {
    let (s, f) = ([Item::from(structure(""))], [Item::from(family(""))]);
    vec![
        one(
            "w212.4 struct_ptr without a name",
            field("p", "struct_ptr"),
            &[],
        ),
        one(
            "w212.4 struct_array_ptr without a name",
            field("p", "struct_array_ptr"),
            &[],
        ),
        one(
            "w212.4 struct_ptr_array_ptr without a name",
            field("p", "struct_ptr_array_ptr"),
            &[],
        ),
        one(
            "w212.4 tagged_fam_ptr without a name",
            field("p", "tagged_fam_ptr"),
            &[],
        ),
        one(
            "w212.4 no name beside a structure of the empty name",
            field("p", "struct_ptr"),
            &s,
        ),
        one("w212.4 the empty name of nothing", pointer("p", ""), &[]),
        one("w212.4 the empty name of a structure", pointer("p", ""), &s),
        one("w212.4 the empty name of a family", pointer("p", ""), &f),
        one("w212.4 a family of the empty name", to_family(""), &f),
        one(
            "w212.4 a structure of the empty name where a family must be",
            to_family(""),
            &s,
        ),
    ]
}

/// W-212.5: what is a declaration.
fn declarations() -> Vec<FixedRecord> {
    let t = |item: Item| [item];
    let variants = family("f").variant("v", &[]);
    vec![
        of("w212.5 a structure declared later", {
            plain()
                .with(structure("s").field(pointer("p", "t")))
                .with(structure("t"))
        }),
        of("w212.5 a family declared later", {
            plain()
                .with(structure("s").field(to_family("f")))
                .with(family("f"))
        }),
        one(
            "w212.5 a structure that points at itself",
            pointer("p", "s"),
            &[],
        ),
        of("w212.5 a family that points at itself", {
            plain().with(family("f").variant("v", &[to_family("f")]))
        }),
        one(
            "w212.5 a variant",
            to_family("f::v"),
            &t(variants.clone().into()),
        ),
        one(
            "w212.5 a variant where a structure must be",
            pointer("p", "f::v"),
            &t(variants.into()),
        ),
        one(
            "w212.5 a structure named as a variant is",
            pointer("p", "f::v"),
            &t(structure("f::v").into()),
        ),
        one(
            "w212.5 an enum",
            pointer("p", "t"),
            &t(enumeration("t", 1).into()),
        ),
        one(
            "w212.5 an alias",
            pointer("p", "t"),
            &t(alias("t", "u8").into()),
        ),
        one(
            "w212.5 a bit field",
            pointer("p", "t"),
            &t(bit_field("t", 1, "0.8.0").into()),
        ),
        one(
            "w212.5 a constant",
            pointer("p", "t"),
            &t(integer("t", 1).into()),
        ),
        one(
            "w212.5 an unstored key",
            pointer("p", "t"),
            &t(key("t", "0.8.0").into()),
        ),
        one(
            "w212.5 a version entry",
            pointer("p", "t"),
            &t(version("t", 1).into()),
        ),
        one(
            "w212.5 the front of a structure's name",
            pointer("p", "til"),
            &t(structure("tile").into()),
        ),
        one("w212.5 a field's name", pointer("p", "p"), &[]),
        one(
            "w212.5 a family's own fields",
            to_family("d"),
            &t(family("f").into()),
        ),
    ]
}

/// W-212.6: one name for both, and the other's alone.
fn both() -> Vec<FixedRecord> {
    let (s, f) = ([Item::from(structure("t"))], [Item::from(family("t"))]);
    let both = [s.clone(), f.clone()].concat();
    let turned = [f.clone(), s.clone()].concat();
    vec![
        one(
            "w212.6 both, and a structure must be",
            pointer("p", "t"),
            &both,
        ),
        one("w212.6 both, and a family must be", to_family("t"), &both),
        one(
            "w212.6 the family first, and a structure must be",
            pointer("p", "t"),
            &turned,
        ),
        one(
            "w212.6 the family first, and a family must be",
            to_family("t"),
            &turned,
        ),
        one("w212.6 only a family", pointer("p", "t"), &f),
        one("w212.6 only a structure", to_family("t"), &s),
    ]
}

/// W-212.7: kinds by their whole word. Each of the sixteen has a name that
/// nobody declares, as type and as element.
fn kinds() -> Vec<FixedRecord> {
    let lost = |kind: &str| field("p", kind).of("gone").each("gone");
    let strange = [
        "struct_ptr ",
        " struct_ptr",
        "Struct_ptr",
        "struct_pt",
        "struct_ptrs",
        "struct_array_pt",
        "struct_ptr_array_ptr ",
        "tagged_fam_pt",
        "TAGGED_FAM_PTR",
        "tagged_fam_ptr_",
        "",
    ];
    let each = |label| move |kind: &&str| one(label, lost(kind), &[]);
    let mut records: Vec<FixedRecord> = Vec::new();
    records.extend(POINTERS.iter().map(each("w212.7 a pointer's kind")));
    records.extend(PLAIN_KINDS.iter().map(each("w212.7 another kind")));
    records.extend(strange.iter().map(each("w212.7 a word that is no kind")));
    records
}
