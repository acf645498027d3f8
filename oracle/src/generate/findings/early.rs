//! Fixed pairs for the passes before the fields: findings A5 to A12 and D29 to
//! D35, and the edges of releases.

use super::{FixedPair, NOW, changed, metadata, now, pair, shared, then};
use crate::generate::make::{
    alias, bit_field, content, enumeration, family, field, integer, key, scalar, structure, text,
    version,
};
use crate::model::Constant;

const OLD: &str = "0.5.0";
const OTHER: &str = "0.6.0";

pub fn pairs() -> Vec<FixedPair> {
    [
        doublets(),
        release_order(),
        first_releases(),
        constants(),
        enums(),
        bit_fields(),
    ]
    .concat()
}

fn dated(name: &str, release: &str) -> Constant {
    integer(name, 1).ora().dated(release)
}

/// Findings A5 to A12: of two with one name, and where 01 can be read two ways.
fn doublets() -> Vec<FixedPair> {
    let f = || family("f").common(scalar("c", "u8"));
    let wide = || structure("f").field(scalar("w", "u32"));
    vec![
        changed(
            "a05 the later constant changed",
            integer("c", 1),
            integer("c", 1),
        )
        .now(integer("c", 2)),
        changed(
            "a05 the earlier constant changed",
            integer("c", 2),
            integer("c", 1),
        )
        .now(integer("c", 1)),
        changed(
            "a05 the first constant is the generation",
            integer("G", 4),
            integer("G", 3),
        )
        .now(integer("G", 9))
        .then(integer("G", 8))
        .both(metadata("m"))
        .now(version("m", 4)),
        changed("a06 a structure after a family of its name", f(), f()).now(wide()),
        changed("a06 a structure before a family of its name", wide(), f()).now(f()),
        changed(
            "a07 a later doublet outside the plugin API",
            dated("c", OLD),
            dated("c", OLD),
        )
        .then(integer("c", 1).dated(OTHER)),
        changed(
            "a07 a later doublet in the plugin API",
            dated("c", OLD),
            dated("c", OLD),
        )
        .then(dated("c", OTHER)),
        changed(
            "a07 the later of two enums",
            enumeration("e", 1).ora().dated(OLD),
            enumeration("e", 1).ora().dated(OTHER),
        )
        .then(enumeration("e", 1).ora().dated(OLD)),
        changed(
            "a07 a released enum outside the plugin API",
            enumeration("e", 1).ora().dated(NOW),
            enumeration("e", 1).dated(OTHER),
        ),
        changed("a07 the later of two keys", key("k", OLD), key("k", OLD)).then(key("k", OTHER)),
        changed(
            "a07 an unstored key after a field's",
            key("k", OLD),
            key("k", OLD),
        )
        .both(metadata("m").field(scalar("n", "u8").keyed("k", OTHER))),
        changed(
            "a08 a discriminant with colons",
            family("f").variant(":y::z", &[]),
            family("f"),
        )
        .both(metadata("m").field(field("p", "tagged_fam_ptr").of("f")))
        .both(integer("G", 3)),
        shared(
            "a09 a common field with the discriminant's name",
            family("f").common(scalar("d", "u16")),
        ),
        pair(
            "a12 a field's key before an earlier unstored one",
            now()
                .with(key("unstored", OLD))
                .with(structure("s").field(scalar("n", "u8").keyed("stored", OLD))),
            then(),
        ),
    ]
}

/// Findings D29 and D30, and the edges of releases.
fn release_order() -> Vec<FixedPair> {
    let ordered = |label, is: &str, was: &str| pair(label, content(is), content(was));
    vec![
        pair(
            "d29 a flagged copy with keys and versions alone",
            content("bad"),
            then()
                .unreleased()
                .with(key("k", OLD))
                .with(version("s", 1)),
        ),
        pair(
            "d29 a flagged copy with an alias",
            content("bad"),
            then().unreleased().with(alias("a", "u8")),
        ),
        pair(
            "d29 a flagged copy without release",
            now(),
            then().without_release().unreleased(),
        ),
        pair("d29 a flagged current record", now().unreleased(), then()),
        ordered("d30 both releases bad", "bad", "worse"),
        ordered("d30 0.10.0 after 0.9.0", "0.10.0", "0.9.0"),
        ordered("d30 0.9.0 after 0.10.0", "0.9.0", "0.10.0"),
        ordered("edge 0.8.0 after 0.8.0", "0.8.0", "0.8.0"),
        ordered("edge 00.8.0 now", "00.8.0", "0.7.0"),
        ordered("edge 4294967296.0.0 now", "4294967296.0.0", "0.7.0"),
        ordered("edge 4294967295.0.0 now", "4294967295.0.0", "0.7.0"),
        ordered("edge 00.8.0 then", "0.9.0", "00.8.0"),
        ordered("b13 an empty release now", "", "0.8.0"),
        ordered("b13 an empty release then", "0.9.0", ""),
        pair(
            "edge 0.8.0 after no release",
            content("0.8.0"),
            then().without_release(),
        ),
        pair(
            "edge 0.7.9 after no release",
            content("0.7.9"),
            then().without_release(),
        ),
    ]
}

/// Findings D30 and D31.
fn first_releases() -> Vec<FixedPair> {
    let e = |date: &str| enumeration("e", 1).ora().dated(date);
    vec![
        changed(
            "d30 a date is compared as text",
            dated("c", "0.5.0"),
            dated("c", "0.05.0"),
        ),
        shared("d30 a date may be any text", dated("c", "never")),
        pair(
            "d31 constants before enums and keys",
            now().with(key("k", OLD)).with(e(OLD)).with(dated("c", OLD)),
            then(),
        ),
        pair(
            "d31 a constant without date",
            now().with(integer("c", 1).ora()),
            then(),
        ),
        pair(
            "d31 an enum without date is skipped with its values",
            now().with(enumeration("e", 1).ora().dated_value("v", 1, OLD)),
            then(),
        ),
        changed(
            "d31 a constant that was not in the plugin API",
            dated("c", OLD),
            integer("c", 1).dated(OLD),
        ),
        changed(
            "d31 a value's old date is its enum's",
            e(OLD).dated_value("v", 1, OLD),
            e(OLD).value("v", 1),
        ),
        changed(
            "d31 a value's old date is its own",
            e(OLD).value("v", 1),
            e(OLD).dated_value("v", 1, OTHER),
        ),
        changed(
            "d31 a value without any date that names now",
            e(OLD).dated_value("v", 1, NOW),
            enumeration("e", 1).ora().value("v", 1),
        ),
        changed(
            "d31 a value without any date that names another",
            e(OLD).dated_value("v", 1, OTHER),
            enumeration("e", 1).ora().value("v", 1),
        ),
        changed("d31 a new value without date", e(OLD).value("v", 1), e(OLD)),
        changed(
            "d31 a new value with a wrong date",
            e(OLD).dated_value("v", 1, OTHER),
            e(OLD),
        ),
        changed(
            "d31 a new value with its date",
            e(OLD).dated_value("v", 1, NOW),
            e(OLD),
        ),
        pair(
            "d31 a new enum with a new value",
            now().with(e(NOW).value("v", 1)),
            then(),
        ),
        changed(
            "d31 an unstated enum that names now",
            e(NOW),
            enumeration("e", 1).ora(),
        ),
        pair(
            "d31 the copy's release in a text",
            now().with(dated("c", NOW)),
            then().without_release().with(integer("c", 1).ora()),
        ),
    ]
}

/// Findings D32 and D33.
fn constants() -> Vec<FixedPair> {
    let both = |label, is: Constant, was: Constant| changed(label, is, was).both(metadata("m"));
    vec![
        changed("d32 names in byte order", integer("a", 2), integer("a", 1))
            .now(integer("B", 2))
            .then(integer("B", 1)),
        pair(
            "d32 gone before changed, by name",
            now().with(integer("b", 2)),
            then().with(integer("b", 1)).with(integer("c", 1)),
        ),
        both(
            "d32 a generation that became text",
            text("G", "4"),
            integer("G", 3),
        ),
        both(
            "d32 a generation that became negative",
            integer("G", -1),
            integer("G", 3),
        ),
        both(
            "d32 a generation above 32 bits",
            integer("G", 1 << 32),
            integer("G", 3),
        ),
        both(
            "d32 a text generation, unchanged",
            text("G", "3"),
            integer("G", 3),
        ),
        both("d32 a generation gone", integer("H", 3), integer("G", 3)),
        changed(
            "d33 an integer that became its text",
            text("c", "5"),
            integer("c", 5),
        ),
        changed(
            "d33 an integer that became another text",
            text("c", "05"),
            integer("c", 5),
        ),
        changed(
            "d33 the least integer",
            text("c", "-9223372036854775808"),
            integer("c", i64::MIN),
        ),
    ]
}

/// Finding D34.
fn enums() -> Vec<FixedPair> {
    let e = || enumeration("e", 1);
    vec![
        changed(
            "d34 the second doublet is judged",
            e().value("a", 1),
            e().value("a", 1),
        )
        .then(e().value("b", 2)),
        changed(
            "d34 the first current doublet counts",
            e().value("a", 1),
            e().value("a", 1),
        )
        .now(e()),
        changed(
            "d34 the second current doublet does not",
            e(),
            e().value("a", 1),
        )
        .now(e().value("a", 1)),
        pair("d34 an enum without values gone", now(), then().with(e())),
        pair(
            "d34 an enum with values gone",
            now(),
            then().with(e().value("a", 1)),
        ),
        changed(
            "d34 one of two names for a number gone",
            e().value("b", 1),
            e().value("a", 1).value("b", 1),
        ),
        changed(
            "d34 a value that took another's number",
            e().value("a", 2).value("b", 2),
            e().value("a", 1).value("b", 2),
        ),
        changed(
            "d34 the first of two values with the old number",
            e().value("b", 1).value("c", 1),
            e().value("a", 1),
        ),
        changed("d34 a value gone", e(), e().value("a", i64::MIN)),
    ]
}

/// Finding D35.
fn bit_fields() -> Vec<FixedPair> {
    let b = || bit_field("b", 1, OLD);
    vec![
        changed(
            "d35 an absent width is 1 for a renamed member",
            b().member("y", 0, Some(1)),
            b().member("x", 0, None),
        ),
        changed(
            "d35 width 0 is not 1 for a renamed member",
            b().member("y", 0, Some(0)),
            b().member("x", 0, None),
        ),
        changed(
            "d35 an absent width is 1",
            b().member("x", 0, Some(1)),
            b().member("x", 0, None),
        ),
        changed(
            "d35 moved and widened",
            b().member("x", 1, Some(2)),
            b().member("x", 0, None),
        ),
        changed(
            "d35 moved down",
            b().member("x", 0, None),
            b().member("x", 1, None),
        ),
        changed(
            "d35 the first current member of a name counts",
            b().member("x", 1, None).member("x", 0, None),
            b().member("x", 0, None),
        ),
        changed(
            "d35 the first of two members with the old bits",
            b().member("y", 0, None).member("z", 0, None),
            b().member("x", 0, None),
        ),
        changed(
            "d35 the first current doublet counts",
            b().member("x", 0, None),
            b().member("x", 0, None),
        )
        .now(b()),
        changed(
            "d35 the second current doublet does not",
            b(),
            b().member("x", 0, None),
        )
        .now(b().member("x", 0, None)),
        changed(
            "d35 width 0",
            b().member("x", 0, Some(0)),
            b().member("x", 0, None),
        ),
        changed("d35 a copy without date", b(), b().undated()),
        changed(
            "d35 a copy's member without date",
            b().dated_member("x", 0, OTHER),
            b().undated().member("x", 0, None),
        ),
        changed(
            "d35 a copy's member with a date in a field without",
            b().dated_member("x", 0, OTHER),
            b().undated().dated_member("x", 0, OLD),
        ),
        changed("d35 the first released doublet counts", b(), b()).then(bit_field("b", 1, OTHER)),
        changed("d35 the second current doublet is judged too", b(), b())
            .now(bit_field("b", 1, OTHER)),
        changed(
            "d35 the current order",
            bit_field("z", 1, OLD),
            alias("q", "u8"),
        )
        .now(bit_field("a", 1, OLD)),
        changed(
            "d35 a renamed member before its date",
            bit_field("b", 1, NOW).member("y", 0, None),
            b().member("x", 0, None),
        ),
    ]
}
