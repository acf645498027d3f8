//! Contents of few names and many doublets, and single changes to any content.

use super::words::{POINTERS, PRIMITIVES, REFERENCES, SLOTS};
use super::{base, heavy, make, words};
use crate::model::{
    Constant, Content, Enum, EnumValue, Family, Field, Item, Key, Member, Struct, Value, Variant,
};
use crate::rng::Rng;

const NAMES: [&str; 16] = [
    "a", "a", "a", "b", "b", "c", "d", "", "a::b", "a::V", "a:", ":b", "a:::b", "a!", "a;", "a0",
];

/// Few names beyond ASCII, so that equal ones meet, and such as look the same.
const UNITS: [&str; 10] = [
    "\u{b5}",
    "\u{3bc}",
    "\u{c5}",
    "\u{212b}",
    "A\u{30a}",
    "a::\u{b5}",
    "\u{b5}::b",
    "\u{430}",
    "\u{ffff}",
    "\u{10000}",
];

/// Few dates, so that equal ones meet.
const DATES: [&str; 3] = ["0.9.0", "0.8.0", ""];

/// A content drawn from few names, up to `most` items of any sort.
pub fn content(most: usize, rng: &mut Rng) -> Content {
    let release = rng.word(&["0.9.0", "0.9.0", "0.8.0", "0.10.0", "1.0.0"]);
    let mut content = make::content(&release);
    for _ in 0..rng.below(most + 1) {
        content.items.push(item(rng));
    }
    content
}

/// A content of structures and families that refer to each other, mostly with a
/// root.
pub fn graph(most: usize, rng: &mut Rng) -> Content {
    let mut content = make::content("0.9.0");
    for _ in 0..rng.between(1, most) {
        let item = match rng.chance(75) {
            true => Item::Struct(structure(rng)),
            false => Item::Family(family(rng)),
        };
        content.items.push(item);
    }
    let count = content.structs().count();
    if count > 0 && rng.chance(80) {
        let slot = rng.word(&SLOTS);
        let nth = rng.below(count);
        let root = content.structs_mut().nth(nth).expect("below the count");
        root.slot = Some(slot);
        let field = base::reference("to", &name(rng), rng);
        root.fields.push(field);
    }
    content
}

pub fn name(rng: &mut Rng) -> String {
    rng.word_or(&NAMES, &UNITS)
}

fn date(rng: &mut Rng) -> Option<String> {
    rng.chance(70).then(|| rng.word(&DATES))
}

fn item(rng: &mut Rng) -> Item {
    match rng.below(10) {
        0 => Item::Constant(constant(rng)),
        1 => make::alias(&name(rng), &rng.word(&["u8", "u16", "u32", "a", ""])).into(),
        2 => Item::Enum(enumeration(rng)),
        3 => {
            let mut b = make::bit_field(&name(rng), rng.below(3) as u32, &rng.word(&DATES));
            b.members = (0..rng.below(3)).map(|_| member(rng)).collect();
            b.into()
        }
        4..=6 => Item::Struct(structure(rng)),
        7 => Item::Family(family(rng)),
        8 => Item::Key(key(rng)),
        _ => make::version(&name(rng), rng.below(4) as u32).into(),
    }
}

fn constant(rng: &mut Rng) -> Constant {
    Constant {
        name: name(rng),
        value: value(rng),
        ora_api: rng.chance(40),
        first_release: date(rng),
    }
}

fn value(rng: &mut Rng) -> Value {
    match rng.chance(75) {
        true => Value::Integer(words::integer(rng)),
        false => Value::Text(rng.word(&["", "5", "0", "05", "-1", "a"])),
    }
}

fn enumeration(rng: &mut Rng) -> Enum {
    Enum {
        name: name(rng),
        size: rng.below(5) as u32,
        ora_api: rng.chance(40),
        first_release: date(rng),
        values: (0..rng.below(4)).map(|_| enum_value(rng)).collect(),
    }
}

fn enum_value(rng: &mut Rng) -> EnumValue {
    EnumValue {
        name: name(rng),
        value: rng.below(3) as i64,
        first_release: rng.chance(30).then(|| rng.word(&DATES)),
    }
}

fn member(rng: &mut Rng) -> Member {
    Member {
        name: name(rng),
        bit: rng.below(3) as u32,
        width: rng.chance(50).then(|| rng.below(3) as u32),
        first_release: rng.chance(30).then(|| rng.word(&DATES)),
    }
}

fn slot(rng: &mut Rng) -> Option<String> {
    match rng.below(10) {
        0..=4 => None,
        5..=8 => Some(rng.word(&SLOTS)),
        _ => Some(words::other_slot(rng)),
    }
}

/// A structure or a family.
pub fn type_item(rng: &mut Rng) -> Item {
    match rng.chance(50) {
        true => Item::Struct(structure(rng)),
        false => Item::Family(family(rng)),
    }
}

fn structure(rng: &mut Rng) -> Struct {
    Struct {
        name: name(rng),
        slot: slot(rng),
        constant: rng.chance(60).then(|| name(rng)),
        fields: fields(3, rng),
    }
}

fn family(rng: &mut Rng) -> Family {
    Family {
        name: name(rng),
        discriminant_field: name(rng),
        discriminant_type: name(rng),
        param_len_field: name(rng),
        param_len_type: rng.chance(50).then(|| rng.word(&["u8", "u16", "", "a"])),
        standalone: rng.chance(40),
        common_fields: fields(2, rng),
        variants: (0..rng.below(3)).map(|_| variant(rng)).collect(),
    }
}

fn variant(rng: &mut Rng) -> Variant {
    Variant {
        discriminant: name(rng),
        fields: fields(2, rng),
    }
}

fn key(rng: &mut Rng) -> Key {
    make::key(&name(rng), &rng.word(&DATES))
}

fn fields(most: usize, rng: &mut Rng) -> Vec<Field> {
    (0..rng.below(most + 1)).map(|_| field(rng)).collect()
}

fn field(rng: &mut Rng) -> Field {
    Field {
        name: name(rng),
        kind: kind(rng),
        type_: rng.chance(60).then(|| type_word(rng)),
        element: rng.chance(40).then(|| type_word(rng)),
        count: number(rng),
        rows: number(rng),
        cols: number(rng),
        size: number(rng),
        key: rng.chance(15).then(|| key(rng)),
    }
}

fn kind(rng: &mut Rng) -> String {
    match rng.below(10) {
        0..=2 => rng.word(&["scalar", "enum", "type_alias", "bitfield"]),
        3..=6 => rng.word(&REFERENCES),
        7 => rng.word(&POINTERS),
        8 => rng.word(&["padding", "string", "inline_array", "inline_array2d"]),
        _ => words::strange_kind(rng),
    }
}

fn type_word(rng: &mut Rng) -> String {
    match rng.chance(40) {
        true => rng.word(&PRIMITIVES),
        false => name(rng),
    }
}

fn number(rng: &mut Rng) -> Option<u32> {
    match rng.below(100) {
        0..=49 => None,
        50..=97 => Some(rng.below(4) as u32),
        _ => Some(*rng.pick(&heavy::NUMBERS)),
    }
}

/// Make one drawn change anywhere in a content.
pub fn mutate(content: &mut Content, rng: &mut Rng) {
    match rng.below(20) {
        0 => content.release = Some(rng.word(&["0.9.0", "0.8.0", "0.10.0", ""])),
        _ => alter(&mut content.items, item, mutate_item, rng),
    }
}

/// Make one drawn change in a list: an element gone, doubled, new, two of them
/// swapped, or one of them changed.
fn alter<T: Clone>(
    list: &mut Vec<T>,
    new: fn(&mut Rng) -> T,
    change: fn(&mut T, &mut Rng),
    rng: &mut Rng,
) {
    if list.is_empty() {
        return list.push(new(rng));
    }
    let at = rng.below(list.len());
    match rng.below(10) {
        0 => {
            list.remove(at);
        }
        1 => {
            let twin = list[at].clone();
            rng.insert(list, twin);
        }
        2 => {
            let fresh = new(rng);
            rng.insert(list, fresh);
        }
        3 => {
            let other = rng.below(list.len());
            list.swap(at, other);
        }
        _ => change(&mut list[at], rng),
    }
}

fn mutate_item(item: &mut Item, rng: &mut Rng) {
    match item {
        Item::Constant(c) => mutate_constant(c, rng),
        Item::Alias(a) => a.underlying = rng.word(&PRIMITIVES),
        Item::Enum(e) => mutate_enum(e, rng),
        Item::BitField(b) => match rng.below(4) {
            0 => b.name = name(rng),
            1 => b.size = rng.below(5) as u32,
            2 => b.first_release = Some(rng.word(&DATES)),
            _ => alter(&mut b.members, member, mutate_member, rng),
        },
        Item::Struct(s) => match rng.below(6) {
            0 => s.name = name(rng),
            1 => s.slot = slot(rng),
            2 => s.constant = rng.chance(60).then(|| name(rng)),
            _ => alter(&mut s.fields, field, mutate_field, rng),
        },
        Item::Family(f) => mutate_family(f, rng),
        Item::Key(k) => *k = key(rng),
        Item::Version(v) => v.version = rng.below(9) as u32,
    }
}

fn mutate_constant(c: &mut Constant, rng: &mut Rng) {
    match rng.below(5) {
        0 => c.name = name(rng),
        1 => c.ora_api = !c.ora_api,
        2 => c.first_release = date(rng),
        3 => c.value = value(rng),
        _ => {
            if let Value::Integer(integer) = &mut c.value {
                *integer = integer.wrapping_add(1);
            }
        }
    }
}

fn mutate_enum(e: &mut Enum, rng: &mut Rng) {
    match rng.below(6) {
        0 => e.name = name(rng),
        1 => e.size = rng.below(5) as u32,
        2 => e.ora_api = !e.ora_api,
        3 => e.first_release = date(rng),
        _ => alter(&mut e.values, enum_value, mutate_value, rng),
    }
}

fn mutate_value(v: &mut EnumValue, rng: &mut Rng) {
    match rng.below(3) {
        0 => v.name = name(rng),
        1 => v.value = words::integer(rng),
        _ => v.first_release = date(rng),
    }
}

fn mutate_member(m: &mut Member, rng: &mut Rng) {
    match rng.below(4) {
        0 => m.name = name(rng),
        1 => m.bit = rng.below(4) as u32,
        2 => m.width = rng.chance(60).then(|| rng.below(4) as u32),
        _ => m.first_release = date(rng),
    }
}

fn mutate_family(f: &mut Family, rng: &mut Rng) {
    match rng.below(9) {
        0 => f.name = name(rng),
        1 => f.discriminant_field = name(rng),
        2 => f.discriminant_type = name(rng),
        3 => f.param_len_field = name(rng),
        4 => f.param_len_type = rng.chance(60).then(|| type_word(rng)),
        5 => f.standalone = !f.standalone,
        6 => alter(&mut f.common_fields, field, mutate_field, rng),
        _ => alter(&mut f.variants, variant, mutate_variant, rng),
    }
}

fn mutate_variant(v: &mut Variant, rng: &mut Rng) {
    match rng.below(3) {
        0 => v.discriminant = name(rng),
        _ => alter(&mut v.fields, field, mutate_field, rng),
    }
}

fn mutate_field(f: &mut Field, rng: &mut Rng) {
    match rng.below(9) {
        0 => f.name = name(rng),
        1 => f.kind = kind(rng),
        2 => f.type_ = rng.chance(70).then(|| type_word(rng)),
        3 => f.element = rng.chance(70).then(|| type_word(rng)),
        4 => f.count = number(rng),
        5 => f.rows = number(rng),
        6 => f.cols = number(rng),
        7 => f.size = number(rng),
        _ => f.key = rng.chance(60).then(|| key(rng)),
    }
}
