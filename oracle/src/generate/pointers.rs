//! Records with many pointers: names that are a structure's, a family's, both
//! or nobody's, declared before or after their use, in types that another of
//! their name replaces too.

use super::encode::{Encoded, encode};
use super::words::{PLAIN_KINDS, POINTERS, PRIMITIVES};
use super::{damage, make, words};
use crate::model::{Content, Family, Field, Item, Side, Struct, Variant};
use crate::rng::Rng;

/// The kinds that are judged.
const JUDGED: [&str; 4] = [
    "struct_ptr",
    "struct_array_ptr",
    "struct_ptr_array_ptr",
    "tagged_fam_ptr",
];

/// Words near the judged kinds.
const NEAR_KINDS: [&str; 8] = [
    "struct_ptr ",
    "Struct_ptr",
    "struct_pt",
    "struct_ptr_",
    "struct_array_pt",
    "struct_ptr_array_ptrs",
    "tagged_fam_pt",
    "tagged_fam_ptr\"",
];

/// Few names of types, so that equal ones meet.
const NAMES: [&str; 9] = ["a", "a", "b", "c", "d", "", "a::b", "tile", "tile2"];

/// Names beyond ASCII that look the same, or begin or end with another's bytes.
const UNITS: [&str; 7] = [
    "\u{b5}",
    "\u{3bc}",
    "\u{c5}",
    "\u{212b}",
    "A\u{30a}",
    "a\u{b5}",
    "tile\u{1f52c}",
];

fn name(rng: &mut Rng) -> String {
    rng.word_or(&NAMES, &UNITS)
}

/// Refusals that a short record can have.
const REFUSALS: [u32; 8] = [1, 2, 3, 4, 5, 6, 7, 9];

/// A record with pointers; now and then a damaged one.
pub fn record(rng: &mut Rng) -> Encoded {
    if rng.chance(8) {
        return refused(*rng.pick(&REFUSALS), rng);
    }
    let content = content(rng);
    encode(&content, rng)
}

/// A record with pointers that is refused with this number.
pub fn refused(number: u32, rng: &mut Rng) -> Encoded {
    damage::damaged(&content(rng), number, Side::Current, rng)
}

/// The names of the types that a record declares, and how often in a hundred
/// times a pointer names one of the right sort.
struct Names {
    structs: Vec<String>,
    families: Vec<String>,
    right: usize,
}

/// A content of types whose fields point at each other, and of other items that
/// have names of theirs.
pub fn content(rng: &mut Rng) -> Content {
    let names = Names {
        structs: drawn(4, rng),
        families: drawn(3, rng),
        right: *rng.pick(&[40, 70, 90, 100]),
    };
    let mut content = make::content("0.9.0");
    for name in &names.structs {
        let item = structure(name, &names, rng);
        rng.insert(&mut content.items, Item::Struct(item));
    }
    for name in &names.families {
        let item = family(name, &names, rng);
        rng.insert(&mut content.items, Item::Family(item));
    }
    for _ in 0..rng.below(3) {
        let item = bystander(rng);
        rng.insert(&mut content.items, item);
    }
    content
}

fn drawn(most: usize, rng: &mut Rng) -> Vec<String> {
    (0..rng.below(most + 1)).map(|_| name(rng)).collect()
}

/// An item that is no type, of a type's name.
fn bystander(rng: &mut Rng) -> Item {
    let name = name(rng);
    match rng.below(6) {
        0 => make::integer(&name, 1).into(),
        1 => make::alias(&name, "u8").into(),
        2 => make::enumeration(&name, 1).into(),
        3 => make::bit_field(&name, 1, "0.8.0").into(),
        4 => make::key(&name, "0.8.0").into(),
        _ => make::version(&name, 1).into(),
    }
}

fn structure(name: &str, names: &Names, rng: &mut Rng) -> Struct {
    Struct {
        slot: rng.chance(10).then(|| "metadata".to_string()),
        fields: fields(4, names, rng),
        ..make::structure(name)
    }
}

fn family(name: &str, names: &Names, rng: &mut Rng) -> Family {
    Family {
        common_fields: fields(2, names, rng),
        variants: (0..rng.below(3)).map(|_| variant(names, rng)).collect(),
        ..make::family(name)
    }
}

fn variant(names: &Names, rng: &mut Rng) -> Variant {
    Variant {
        discriminant: name(rng),
        fields: fields(2, names, rng),
    }
}

fn fields(most: usize, names: &Names, rng: &mut Rng) -> Vec<Field> {
    (0..rng.below(most + 1))
        .map(|_| field(names, rng))
        .collect()
}

fn field(names: &Names, rng: &mut Rng) -> Field {
    let kind = kind(rng);
    let mut field = Field {
        type_: operand(rng),
        element: operand(rng),
        ..make::field(&rng.word(&["p", "q", "next"]), &kind)
    };
    let (fit, other) = match kind.as_str() {
        "tagged_fam_ptr" => (&names.families, &names.structs),
        _ => (&names.structs, &names.families),
    };
    let named = match kind.as_str() {
        "struct_array_ptr" | "struct_ptr_array_ptr" => &mut field.element,
        _ => &mut field.type_,
    };
    match rng.chance(names.right) {
        true if fit.is_empty() => field.kind = "scalar".into(),
        true => *named = Some(rng.pick(fit).clone()),
        false if !other.is_empty() && rng.chance(60) => *named = Some(rng.pick(other).clone()),
        false => {}
    }
    field.key = rng.chance(10).then(|| make::key("k", "0.8.0"));
    field
}

fn kind(rng: &mut Rng) -> String {
    match rng.below(100) {
        0..=69 => rng.word(&JUDGED),
        70..=81 => rng.word(&POINTERS),
        82..=91 => rng.word(&PLAIN_KINDS),
        92..=96 => rng.word(&NEAR_KINDS),
        _ => words::strange_kind(rng),
    }
}

/// A type or an element, drawn without a thought for what is declared.
fn operand(rng: &mut Rng) -> Option<String> {
    match rng.below(10) {
        0..=2 => None,
        3 => Some(rng.word(&PRIMITIVES)),
        4 => Some("nobody".into()),
        _ => Some(name(rng)),
    }
}
