//! Types that end at 4,294,967,295 bytes, one byte after it, and far after it.

use super::make;
use crate::model::{Content, Family, Field, Item, Struct};
use crate::rng::Rng;

pub const NUMBERS: [u32; 5] = [65_536, 0x4000_0000, 0x8000_0000, 0xFFFF_FFFE, 0xFFFF_FFFF];

/// Fields that end at the limit or before it.
pub fn fitting(rng: &mut Rng) -> Vec<Field> {
    let lists = [
        vec![make::padding("p", 0xFFFF_FFFF)],
        vec![make::padding("p", 0xFFFF_FFFE), make::scalar("n", "u8")],
        vec![
            make::array("x", "u32", 0x3FFF_FFFF),
            make::scalar("n", "u16"),
            make::scalar("m", "char"),
            make::field("s", "string"),
        ],
        vec![
            make::array("x", "u8", 0xFFFF_FFFF),
            make::scalar("n", "u64"),
        ],
        vec![make::array2d("x", "u8", 65_535, 65_537)],
        vec![make::array2d("x", "u64", 0xFFFF_FFFF, 0xFFFF_FFFF)],
        vec![make::array2d("x", "u32", 0xFFFF_FFFF, 0)],
    ];
    rng.pick(&lists).clone()
}

/// Fields of which one has too great a size or end.
pub fn vast(rng: &mut Rng) -> Vec<Field> {
    let lists = [
        vec![make::padding("p", 0xFFFF_FFFF), make::scalar("n", "u8")],
        vec![make::scalar("n", "u16"), make::padding("p", 0xFFFF_FFFE)],
        vec![make::array("x", "u32", 0x4000_0000)],
        vec![make::array("x", "u16", 0x8000_0000)],
        vec![make::array2d("x", "u8", 65_536, 65_536)],
        vec![make::array2d("x", "u32", 0x8000_0000, 0x8000_0000)],
        vec![make::array2d("x", "u32", 0xFFFF_FFFF, 0xFFFF_FFFF)],
        vec![
            make::padding("p", 0xFFFF_FFFF),
            make::padding("q", 0xFFFF_FFFF),
            make::pointer("n", "a"),
        ],
    ];
    rng.pick(&lists).clone()
}

/// Put fields into a structure, a family or a variant of the content, one that
/// is there or a new one.
pub fn load(content: &mut Content, fields: Vec<Field>, rng: &mut Rng) {
    let mut lists: Vec<_> = (content.items.iter_mut())
        .flat_map(|item| item.fields_mut())
        .collect();
    if lists.is_empty() || rng.chance(30) {
        let mut s = make::structure("heavy");
        s.fields = fields;
        return rng.insert(&mut content.items, s.into());
    }
    let at = rng.below(lists.len());
    lists[at].extend(fields);
}

/// Put a named type of this size into the content, with a use of it and a byte
/// after that: a family's front, or a field.
pub fn load_named(content: &mut Content, size: u32, rng: &mut Rng) {
    let byte = make::scalar("n", "u8");
    let named: Item = match rng.chance(50) {
        true => make::enumeration("heavy", size).into(),
        false => make::bit_field("heavy", size, "").into(),
    };
    let user: Item = match (&named, rng.chance(50)) {
        (Item::Enum(_), true) => Item::Family(Family {
            discriminant_type: "heavy".into(),
            ..make::family("front")
        }),
        (Item::Enum(_), false) => used("enum").field(byte).into(),
        _ => used("bitfield").field(byte).into(),
    };
    rng.insert(&mut content.items, named);
    rng.insert(&mut content.items, user);
}

fn used(kind: &str) -> Struct {
    make::structure("user").field(make::field("h", kind).of("heavy"))
}
