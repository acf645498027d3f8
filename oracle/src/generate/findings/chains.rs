//! Fixed pairs for what no pass notices and for the links of chains: findings
//! F47 and G48 to G54.

use super::{FixedPair, metadata, now, pair, then};
use crate::generate::make::{
    alias, bit_field, enumeration, family, field, integer, key, pointer, root, scalar, structure,
    text, version,
};
use crate::model::Family;

pub fn pairs() -> Vec<FixedPair> {
    [unnoticed(), links(), doubled(), holes(), neighbours()].concat()
}

/// Finding F47, and C23 with C28.
fn unnoticed() -> Vec<FixedPair> {
    let seen = || integer("c", 1).ora().dated("0.5.0");
    let e = || enumeration("e", 1).ora().dated("0.5.0").value("a", 1);
    let hidden = || enumeration("e", 1).value("a", 1);
    vec![
        pair("f47 a key gone", now(), then().with(key("k", "0.5.0"))),
        pair(
            "f47 a constant leaves the plugin API",
            now().with(integer("c", 1)),
            then().with(seen()),
        ),
        pair(
            "f47 an enum leaves the plugin API",
            now().with(hidden()),
            then().with(e()),
        ),
        pair("f47 an alias gone", now(), then().with(alias("a", "u8"))),
        pair(
            "f47 an enum without values gone",
            now(),
            then().with(enumeration("e", 4)),
        ),
        pair(
            "f47 unused sizes changed",
            now()
                .with(enumeration("e", 2))
                .with(bit_field("b", 2, "0.5.0"))
                .with(alias("a", "u16")),
            then()
                .with(enumeration("e", 1))
                .with(bit_field("b", 1, "0.5.0"))
                .with(alias("a", "u8")),
        ),
        pair(
            "f47 a slot lost",
            now().with(structure("m")).with(integer("G", 3)),
            then().with(metadata("m")).with(integer("G", 3)),
        ),
        pair(
            "f47 version entries gone",
            now().with(metadata("m")).with(integer("G", 3)),
            then()
                .with(metadata("m"))
                .with(integer("G", 3))
                .with(version("m", 3)),
        ),
        pair(
            "f47 an integer that became its text",
            now().with(text("c", "5")),
            then().with(integer("c", 5)),
        ),
        pair(
            "f47 a text that became a generation",
            now().with(metadata("m")).with(integer("G", 9)),
            then().with(structure("m")).with(text("G", "magic")),
        ),
        pair(
            "c23 a reference that moved",
            now().with(structure("s").field(field("p", "struct_array_ptr").of("t").each("new"))),
            then().with(structure("s").field(field("p", "struct_array_ptr").of("t").each("old"))),
        ),
        pair(
            "c28 a length type spelled out",
            now().with(length_type(Some("u8"))),
            then().with(length_type(None)),
        ),
        pair(
            "c28 a length type left out",
            now().with(length_type(None)),
            then().with(length_type(Some("u8"))),
        ),
    ]
}

fn length_type(type_: Option<&str>) -> Family {
    let mut f = family("f");
    f.param_len_type = type_.map(str::to_string);
    f
}

/// Findings G48 and G52: links of chains that end elsewhere than they began.
fn links() -> Vec<FixedPair> {
    let raised = || now().with(integer("G", 4)).with(version("s", 4));
    let front = || {
        structure("x")
            .field(field("d", "enum").of("e"))
            .field(scalar("l", "u8"))
    };
    vec![
        pair(
            "g48 a strange kind becomes padding",
            raised().with(metadata("s").field(field("n", "padding").of("u8"))),
            then()
                .with(integer("G", 3))
                .with(metadata("s").field(field("n", "padding u8"))),
        ),
        pair(
            "g48 padding goes",
            raised().with(metadata("s")),
            then()
                .with(integer("G", 3))
                .with(metadata("s").field(field("n", "padding").of("u8"))),
        ),
        pair(
            "g52 a family becomes a structure",
            now().with(front()),
            then().with(family("x")),
        ),
        pair(
            "g52 a structure becomes a standalone family",
            now().with(family("x").standalone()),
            then().with(front()),
        ),
        pair(
            "g52 a family becomes standalone",
            now().with(family("x").standalone()),
            then().with(family("x")),
        ),
    ]
}

/// Finding G49: what the clauses of fields, values and members do without. A field is held to the first of its name, doublet or
/// not, and so is one of a type with a colon in its name; a flagged copy that describes anything goes no further.
fn doubled() -> Vec<FixedPair> {
    let kept = |first: &str| {
        structure("s")
            .field(scalar("n", first))
            .field(scalar("n", "u8"))
    };
    let colons = || structure("a::b").field(scalar("n:m", "u8"));
    vec![
        pair(
            "g49 the second of two fields of a name",
            now().with(kept("u16")),
            then().with(kept("u16")),
        ),
        pair(
            "g49 a second field of a shipped name",
            now()
                .with(
                    metadata("s")
                        .field(scalar("n", "u16"))
                        .field(scalar("n", "u8")),
                )
                .with(integer("G", 4))
                .with(version("s", 4)),
            then()
                .with(metadata("s").field(scalar("n", "u16")))
                .with(integer("G", 3)),
        ),
        pair(
            "g49 a field of a type with colons stays",
            now().with(colons()),
            then().with(colons()),
        ),
        pair(
            "g49 a field of a type with colons moves",
            now().with(
                structure("a::b")
                    .field(scalar("k", "u8"))
                    .field(scalar("n:m", "u8")),
            ),
            then().with(colons()),
        ),
        pair(
            "g49 a flagged copy with a field",
            now().with(colons()),
            then().unreleased().with(colons()),
        ),
    ]
}

/// Findings G50, G51 and G53: what the generation clause needs.
fn holes() -> Vec<FixedPair> {
    let grown = || structure("x::v").field(scalar("n", "u8"));
    let x = || family("x").standalone();
    let m = || metadata("m").field(pointer("p", "x"));
    vec![
        pair(
            "g50 a structure x::v beside a standalone family x",
            now()
                .with(m())
                .with(integer("G", 3))
                .with(x())
                .with(grown()),
            then()
                .with(m())
                .with(integer("G", 3))
                .with(x())
                .with(structure("x::v")),
        ),
        pair(
            "g50 the first structure of the name names the constant",
            now()
                .with(root("m", "other", "H"))
                .with(metadata("m").field(scalar("n", "u8")))
                .with(integer("G", 3))
                .with(integer("H", 4))
                .with(version("m", 4)),
            then()
                .with(metadata("m"))
                .with(integer("G", 3))
                .with(integer("H", 3)),
        ),
        pair(
            "g50 a renamed constant is skipped",
            now()
                .with(root("m", "metadata", "H").field(scalar("n", "u8")))
                .with(integer("H", 3))
                .with(integer("G", 3)),
            then().with(metadata("m")).with(integer("G", 3)),
        ),
        pair(
            "g50 a text constant is skipped",
            now()
                .with(metadata("m").field(scalar("n", "u8")))
                .with(integer("G", 3)),
            then().with(metadata("m")).with(text("G", "3")),
        ),
        pair(
            "g51 a standalone family under a generation",
            now()
                .with(m())
                .with(integer("G", 4))
                .with(version("m", 4))
                .with(x().common(scalar("n", "u8"))),
            then().with(m()).with(integer("G", 3)).with(x()),
        ),
        pair(
            "g53 the copy's ownership is not looked at",
            now()
                .with(metadata("m").field(pointer("p", "t")))
                .with(integer("G", 4))
                .with(version("m", 4))
                .with(structure("t").field(scalar("n", "u8"))),
            then()
                .with(metadata("m"))
                .with(integer("G", 3))
                .with(structure("t")),
        ),
    ]
}

/// Finding G54: a type under a generation changes between neighbours, and the number rises by one, not at all, or by two.
fn neighbours() -> Vec<FixedPair> {
    let m = || metadata("m").field(pointer("p", "t"));
    let link = |label, generation: i64| {
        pair(
            label,
            now()
                .with(m())
                .with(integer("G", generation))
                .with(version("m", 3))
                .with(version("m", 4))
                .with(version("m", 5))
                .with(structure("t").field(scalar("n", "u8"))),
            then().with(m()).with(integer("G", 3)).with(structure("t")),
        )
    };
    vec![
        link("g54 a changed type and a rise of one", 4),
        link("g54 a changed type and no rise", 3),
        link("g54 a changed type and a rise of two", 5),
    ]
}
