//! Fixed records for the list: findings A6, A11, B13, B20, C21 to C28, D36 and
//! D38, and the edges of document 01.

use crate::generate::encode::{Encoded, encode_spread, encode_tight};
use crate::generate::make::{
    alias, array, array2d, bit_field, content, enumeration, family, field, padding, pointer,
    scalar, structure,
};
use crate::model::{Content, Field, Item, Struct};

/// A readable record to list.
#[derive(Clone, Debug)]
pub struct FixedList {
    pub label: &'static str,
    pub content: Content,
}

impl FixedList {
    pub fn encoded(&self) -> Encoded {
        match self.label.starts_with("a11") {
            true => encode_tight(&self.content),
            false => encode_spread(&self.content),
        }
    }
}

pub fn lists() -> Vec<FixedList> {
    [edges(), sizes(), named_types(), names(), rooms()].concat()
}

fn fixed(label: &'static str, items: Vec<Item>) -> FixedList {
    let mut content = content("0.9.0");
    content.items = items;
    FixedList { label, content }
}

/// A list of one structure with these fields.
fn of(label: &'static str, fields: &[Field]) -> FixedList {
    fixed(label, vec![holding(fields).into()])
}

fn holding(fields: &[Field]) -> Struct {
    let mut s = structure("s");
    s.fields = fields.to_vec();
    s
}

fn edges() -> Vec<FixedList> {
    let tile = structure("tile")
        .field(scalar("n", "u16"))
        .field(scalar("skip", "u8"))
        .field(padding("gap", 1));
    vec![
        fixed("edge the record of document 01", vec![tile.into()]),
        fixed("edge an empty record", Vec::new()),
        of(
            "edge scalars",
            &[
                field("a", "scalar"),
                scalar("b", "u64"),
                scalar("c", "u8"),
                scalar("d", "char"),
                scalar("e", "u16"),
                scalar("f", "u32"),
            ],
        ),
        of(
            "edge arrays",
            &[
                array("a", "u16", 3),
                array("b", "u64", 3),
                array2d("c", "u32", 2, 3),
                field("d", "inline_array"),
                field("e", "inline_array2d"),
            ],
        ),
        of(
            "edge undeclared types",
            &[
                field("a", "enum").of("x"),
                field("b", "type_alias").of("x"),
                field("c", "bitfield").of("x"),
                field("d", "struct_array_ptr").each("tile"),
            ],
        ),
        of(
            "edge the eight pointers",
            &[
                field("a", "cstr_ptr"),
                pointer("b", "t"),
                field("c", "struct_array_ptr").each("t"),
                field("d", "struct_ptr_array_ptr").each("t"),
                field("e", "tagged_fam_ptr").of("t"),
                field("f", "simple_fam_ptr").of("t"),
                field("g", "opaque_ptr"),
                field("h", "fn_ptr"),
                field("i", "string"),
            ],
        ),
        of(
            "edge a size at the limit",
            &[padding("p", u32::MAX), field("n", "string")],
        ),
    ]
}

/// Findings B13, C21 to C23 and C25.
fn sizes() -> Vec<FixedList> {
    let every = |f: Field| Field {
        count: Some(5),
        rows: Some(6),
        cols: Some(7),
        size: Some(8),
        ..f
    };
    vec![
        of(
            "b13 empty types",
            &[
                scalar("a", ""),
                field("b", "scalar").each(""),
                array("c", "", 2),
                field("d", "enum").of(""),
            ],
        ),
        of(
            "c21 a type before an element",
            &[
                field("a", "scalar").each("u32"),
                scalar("b", "u16").each("u32"),
                field("c", "enum").each("e"),
                field("d", "type_alias").each("t"),
                field("e", "bitfield").each("b"),
            ],
        ),
        of(
            "c22 arrays do not look at the type",
            &[
                array("a", "u16", 2).of("u32"),
                array2d("b", "u16", 2, 2).of("u32"),
                field("c", "inline_array").of("u32"),
            ],
        ),
        of(
            "c22 numbers of other kinds",
            &[
                every(scalar("a", "u8")),
                every(pointer("b", "t")),
                every(field("c", "string")),
                every(array("d", "u8", 5)),
                every(padding("e", 8)),
            ],
        ),
        of(
            "c23 pointers with both names",
            &[
                field("a", "struct_array_ptr").of("shown").each("meant"),
                field("b", "struct_ptr").each("x"),
            ],
        ),
        of(
            "c25 unknown kinds",
            &[
                field("a", "").of("x"),
                field("b", ""),
                field("c", "padding ").of("u8"),
                every(field("d", "Padding")),
                field("e", "scalars").of("u32"),
                field("f", "scala").of("u32"),
            ],
        ),
    ]
}

/// Findings C24, C26 and C28.
fn named_types() -> Vec<FixedList> {
    let uses = holding(&[
        field("a", "enum").of("x"),
        field("b", "type_alias").of("x"),
        field("c", "bitfield").of("x"),
    ]);
    let mut wide = family("g");
    wide.param_len_type = Some("u16".into());
    vec![
        fixed(
            "c24 sizes of named types",
            vec![
                uses.clone().into(),
                enumeration("x", 0).into(),
                alias("x", "u64").into(),
                bit_field("x", 0, "").into(),
            ],
        ),
        fixed(
            "c24 an alias of an alias",
            vec![
                uses.clone().into(),
                alias("x", "y").into(),
                alias("y", "u32").into(),
            ],
        ),
        fixed(
            "c26 the first declaration counts",
            vec![
                enumeration("x", 3).into(),
                enumeration("x", 5).into(),
                alias("x", "u8").into(),
                alias("x", "u32").into(),
                bit_field("x", 7, "").into(),
                bit_field("x", 9, "").into(),
                uses.into(),
            ],
        ),
        fixed(
            "c28 fronts of families",
            vec![
                family("f")
                    .common(scalar("c", "u8"))
                    .variant("v", &[scalar("n", "u32")])
                    .into(),
                wide.into(),
                enumeration("e", 2).into(),
            ],
        ),
    ]
}

/// Findings A6, B20, D36 and D38: which layouts there are, and in which order.
fn names() -> Vec<FixedList> {
    let n = |name: &str| -> Item { structure(name).field(scalar("n", "u8")).into() };
    let m = |name: &str| -> Item { structure(name).field(scalar("m", "u16")).into() };
    let f = family("s")
        .common(scalar("c", "u8"))
        .variant("v", &[scalar("n", "u8")]);
    vec![
        fixed(
            "a06 a structure after a family",
            vec![f.clone().into(), n("s"), n("s::v")],
        ),
        fixed("a06 a structure before a family", vec![n("s"), f.into()]),
        fixed("a06 the later of two structures", vec![n("s"), m("s")]),
        fixed(
            "d36 names in byte order",
            vec![
                n("fama"),
                n("fam;"),
                n("fam0"),
                n("fam!"),
                family("fam").variant("v", &[scalar("n", "u8")]).into(),
                n(""),
                n("Fam"),
            ],
        ),
        fixed(
            "d36 two splits of one name",
            vec![
                family("a:").variant("b", &[scalar("n", "u16")]).into(),
                family("a").variant(":b", &[scalar("n", "u8")]).into(),
            ],
        ),
        fixed(
            "d38 types without fields",
            vec![
                structure("a").into(),
                n("b"),
                family("c").variant("v", &[]).into(),
            ],
        ),
        fixed(
            "b20 names of 255 bytes",
            vec![
                family(&"f".repeat(255))
                    .variant(&"v".repeat(255), &[scalar(&"n".repeat(255), "u8")])
                    .into(),
            ],
        ),
    ]
}

/// Finding A11: lists of 65,536 and 65,537 bytes.
fn rooms() -> Vec<FixedList> {
    vec![
        fixed("a11 a list of 65536 bytes", vec![filling(65_536).into()]),
        fixed("a11 a list of 65537 bytes", vec![filling(65_537).into()]),
    ]
}

/// A structure whose list has this many bytes: lines with field names as long as
/// can be, and at the end what is left.
fn filling(length: usize) -> Struct {
    let shortest = "s. 0 0 string\n".len();
    let longest = shortest + 255;
    let mut s = structure("s");
    let mut left = length;
    while left > 0 {
        let line = match left {
            n if n <= longest => n,
            n if n < longest + shortest => n - shortest,
            _ => longest,
        };
        s = s.field(field(&"n".repeat(line - shortest), "string"));
        left -= line;
    }
    s
}
