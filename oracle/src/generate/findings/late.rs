//! Fixed pairs for the passes from the fields on: findings D36 to D42, and the
//! edges of generations.

use super::{FixedPair, NOW, THEN, changed, metadata, now, pair, shared, then};
use crate::generate::make::{
    family, field, integer, padding, pointer, root, scalar, slotted, structure, text, version,
};
use crate::model::{Content, Field, Item};

pub fn pairs() -> Vec<FixedPair> {
    [
        fields(),
        standalone(),
        generations(),
        generation_numbers(),
        prefixes(),
    ]
    .concat()
}

/// Findings D36 to D38.
fn fields() -> Vec<FixedPair> {
    let named = |names: &[&str], variants: &[&str]| {
        let mut with = Content::default();
        for name in names {
            with = with.with(structure(name));
        }
        let mut f = family("fam");
        for variant in variants {
            f = f.variant(variant, &[]);
        }
        with.with(f)
    };
    let released = |names: &[&str], variants: &[&str]| Content {
        release: Some(THEN.into()),
        ..named(names, variants)
    };
    let current = |names: &[&str], variants: &[&str]| Content {
        release: Some(NOW.into()),
        ..named(names, variants)
    };
    let all = ["fama", "fam;", "fam0", "fam!"];
    let s = |field: Field| structure("s").field(field);
    vec![
        pair(
            "d36 fam::v before fam;",
            current(&["fama", "fam0", "fam!"], &[]),
            released(&all, &["v"]),
        ),
        pair(
            "d36 fam0 before fam::v",
            current(&["fama", "fam;", "fam!"], &[]),
            released(&all, &["v"]),
        ),
        pair(
            "d36 fam! before fam0",
            current(&["fama", "fam;"], &["v"]),
            released(&all, &["v"]),
        ),
        pair(
            "d36 two splits of one name",
            now()
                .with(family("a").variant(":b", &[scalar("n", "u8")]))
                .with(family("a:").variant("b", &[scalar("n", "u16")])),
            then()
                .with(family("a:").variant("b", &[scalar("n", "u16")]))
                .with(family("a").variant(":b", &[scalar("n", "u8")])),
        ),
        changed(
            "d37 a field that became padding",
            s(padding("n", 2)),
            s(scalar("n", "u16")),
        ),
        changed(
            "d37 a field that became padding elsewhere",
            structure("s")
                .field(scalar("m", "u8"))
                .field(padding("n", 2)),
            s(scalar("n", "u16")),
        ),
        changed(
            "d37 a field that became longer padding",
            s(padding("n", 3)),
            s(scalar("n", "u16")),
        ),
        changed(
            "d37 padding of the name before the field",
            structure("s")
                .field(padding("n", 0))
                .field(scalar("n", "u16")),
            s(scalar("n", "u16")),
        ),
        changed(
            "d37 padding renamed",
            s(padding("hole", 4)),
            s(padding("gap", 4)),
        ),
        changed(
            "d37 a strange kind became padding",
            s(field("n", "padding").of("u8")),
            s(field("n", "padding u8")),
        ),
        changed("d37 padding gone", structure("s"), s(padding("gap", 4)))
            .both(metadata("m").field(pointer("p", "s")))
            .now(integer("G", 4))
            .then(integer("G", 3))
            .now(version("m", 4)),
        pair(
            "d38 a type without fields gone",
            now(),
            then().with(structure("s")),
        ),
        pair(
            "d38 a type without fields new",
            now().with(structure("s")),
            then(),
        ),
        shared("d38 a type without fields", structure("s")),
        changed(
            "d38 an owned type without fields new",
            metadata("m").field(pointer("p", "s")),
            metadata("m").field(pointer("p", "s")),
        )
        .now(structure("s"))
        .both(integer("G", 3)),
    ]
}

/// Finding D39.
fn standalone() -> Vec<FixedPair> {
    let f = |name: &str| family(name).standalone();
    vec![
        changed(
            "d39 39 of the first family before 38 of the second",
            f("b"),
            family("z"),
        )
        .then(f("b"))
        .now(f("z"))
        .now_first_field(padding("gap", 1)),
        changed(
            "d39 38 before 39 of one family",
            f("b").common(scalar("n", "u8")),
            family("b"),
        ),
        changed("d39 no longer standalone", family("b"), f("b")),
        changed(
            "d39 a structure that became a standalone family",
            f("x"),
            structure("x")
                .field(field("d", "enum").of("e"))
                .field(scalar("l", "u8")),
        ),
        changed(
            "d39 padding gained",
            f("b").common(padding("gap", 1)),
            f("b"),
        ),
        changed(
            "d39 padding changed",
            f("b").common(padding("gap", 2)),
            f("b").common(padding("gap", 1)),
        ),
        changed("d39 padding gone", f("b"), f("b").common(padding("gap", 1))),
        changed(
            "d39 a field in place of padding of its name",
            f("b").common(scalar("gap", "u8")),
            f("b").common(padding("gap", 1)),
        ),
        changed(
            "d39 a new variant",
            f("b").variant("v", &[scalar("n", "u8")]),
            f("b"),
        ),
        changed(
            "d39 a variant that gained a field",
            f("b").variant("v", &[scalar("n", "u8")]),
            f("b").variant("v", &[]),
        ),
        changed("d39 the first released family of the name", f("b"), f("b")).then(family("b")),
    ]
}

impl FixedPair {
    /// Put a field into the first current family.
    fn now_first_field(mut self, field: Field) -> Self {
        let family = self.current.families_mut().next();
        let family = family.expect("a family is there");
        family.common_fields.push(field);
        self
    }
}

/// Findings D40 and D41, by which root is judged first.
fn generations() -> Vec<FixedPair> {
    let three = |is: [i64; 3], was: [i64; 3]| {
        let slots = [
            ("m", "metadata", "M"),
            ("r", "runtime", "R"),
            ("i", "info", "I"),
        ];
        let mut made = pair("", now(), then());
        for (at, (name, slot, constant)) in slots.into_iter().enumerate() {
            made = made
                .both(root(name, slot, constant))
                .now(integer(constant, is[at]))
                .then(integer(constant, was[at]));
        }
        made
    };
    let labelled = |label, made: FixedPair| FixedPair { label, ..made };
    vec![
        labelled("d40 info before metadata", three([9, 3, 1], [3, 3, 3])),
        labelled("d40 metadata before runtime", three([9, 1, 3], [3, 3, 3])),
        labelled(
            "d40 an uncovered type before a fall",
            three([3, 3, 1], [3, 3, 3]).now(structure("zz")),
        ),
        labelled(
            "d40 the first uncovered type in byte order",
            three([3, 3, 3], [3, 3, 3])
                .now(structure("b"))
                .now(structure("B")),
        ),
        labelled(
            "d40 a released text constant is skipped",
            three([3, 3, 3], [3, 3, 1]).then_first(text("I", "3")),
        ),
        changed(
            "d40 variants of two families, one of them owned",
            family("f").variant("v", &[]),
            family("f"),
        )
        .now(family("g").variant("v", &[]))
        .then(family("g"))
        .both(metadata("m").field(field("p", "tagged_fam_ptr").of("f")))
        .both(integer("G", 3)),
        shared(
            "d40 no constant though nothing changed",
            slotted("m", "metadata"),
        ),
        changed(
            "d40 an absent released constant is skipped",
            metadata("m"),
            structure("m"),
        )
        .now(integer("G", 9))
        .now(structure("t"))
        .now_in_root(pointer("p", "t")),
        labelled(
            "d41 the first changed layout in byte order",
            three([3, 3, 3], [3, 3, 3])
                .now_in_root(pointer("p", "b"))
                .now(structure("b").field(pointer("p", "a")))
                .now(family("a").variant("v", &[])),
        ),
        labelled(
            "d41 a layout of the metadata root alone",
            three([4, 3, 3], [3, 3, 3])
                .now_in_root(scalar("n", "u8"))
                .now(version("m", 4)),
        ),
    ]
}

impl FixedPair {
    /// Put an item at the front of the released record.
    fn then_first(mut self, item: impl Into<Item>) -> Self {
        self.released.items.insert(0, item.into());
        self
    }

    /// Put a field at the end of the first current structure.
    fn now_in_root(mut self, field: Field) -> Self {
        let root = self.current.structs_mut().next();
        root.expect("a structure is there").fields.push(field);
        self
    }
}

/// Finding D41 and the edges of generations.
fn generation_numbers() -> Vec<FixedPair> {
    const LAST: i64 = 4_294_967_295;
    let kept = |label, is: i64, was: i64| {
        changed(label, integer("G", is), integer("G", was)).both(metadata("m"))
    };
    let grown = |label, is: i64, was: i64| {
        changed(label, metadata("m").field(scalar("n", "u8")), metadata("m"))
            .now(integer("G", is))
            .then(integer("G", was))
    };
    vec![
        kept("edge 3 to 3", 3, 3),
        grown("edge 3 to 3 with a change", 3, 3),
        grown("edge the last generation with a change", LAST, LAST),
        grown("edge 3 to 4 with a change and an entry", 4, 3).now(version("m", 4)),
        kept("edge 3 to 4 with an entry", 4, 3).now(version("m", 4)),
        kept("edge 3 to 4 without entry", 4, 3),
        kept("d41 an entry for another number", 4, 3).now(version("m", 3)),
        kept("d41 an entry for another structure", 4, 3).now(version("n", 4)),
        kept("d41 an entry in the copy alone", 4, 3).then(version("m", 4)),
        kept("edge 3 to 5", 5, 3).now(version("m", 5)),
        kept("edge 3 to 2", 2, 3),
        kept("d41 a fall of any size", 0, LAST),
        kept("d41 a rise of any size", LAST, 0),
        pair(
            "d41 a leap after a copy without release",
            now().with(metadata("m")).with(integer("G", 5)),
            then().without_release().with(integer("G", 3)),
        ),
        pair(
            "b13 a generation constant with an empty name",
            now().with(root("m", "metadata", "")).with(integer("", 5)),
            then().with(structure("m")).with(integer("", 3)),
        ),
        kept("edge a released generation of -1", 3, -1),
        kept("edge a released generation above 32 bits", 3, LAST + 1),
    ]
}

/// Finding D42: which name a changed layout is looked up by.
fn prefixes() -> Vec<FixedPair> {
    let owning = |label, names: &[&str]| {
        let mut m = metadata("m");
        for name in names {
            m = m.field(pointer(name, name));
        }
        shared(label, m).both(integer("G", 3))
    };
    let a = || family("a:").variant("v", &[]);
    vec![
        owning("d42 a structure a::b asks for a", &["a"]).now(structure("a::b")),
        owning("d42 a structure a::b does not ask for itself", &["a::b"]).now(structure("a::b")),
        owning("d42 a structure ::x asks for the empty name", &[""]).now(structure("::x")),
        owning("d42 a variant of a: does not ask for a:", &["a:"]).now(a()),
        owning("d42 a variant of a: asks for a", &["a", "a:"]).now(a()),
        pair(
            "d42 a standalone family excuses a structure of its front",
            now().with(family("x").standalone()).with(structure("x::y")),
            then(),
        ),
    ]
}
