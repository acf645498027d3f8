//! Pairs that differ in their release alone and are accepted: what steps and
//! faults start from.

use super::draft::Draft;
use super::make;
use super::words::{self, POINTERS, PRIMITIVES, REFERENCES, SLOTS};
use crate::model::{Content, Field, Item, Struct};
use crate::rng::Rng;

/// An accepted pair of equal records, small.
pub fn base(rng: &mut Rng) -> Draft {
    let mut draft = empty(rng);
    for _ in 0..rng.below(3) {
        let add = *rng.pick(&[add_constant, add_alias, add_enum, add_bit_field]);
        add(&mut draft, rng);
    }
    for _ in 0..rng.below(3) {
        let add = *rng.pick(&[add_root, add_root, add_struct, add_family, add_key]);
        add(&mut draft, rng);
    }
    draft
}

/// A pair of empty records in a right order of releases.
pub fn empty(rng: &mut Rng) -> Draft {
    match rng.chance(15) {
        true => Draft::new(None, &rng.word(&words::LATE_RELEASES)),
        false => {
            let (then, now) = *rng.pick(&words::RISING_RELEASES);
            Draft::new(Some(then), now)
        }
    }
}

pub fn add_constant(draft: &mut Draft, rng: &mut Rng) {
    let name = draft.name(rng);
    let mut constant = match rng.chance(70) {
        true => make::integer(&name, words::integer(rng)),
        false => make::text(
            &name,
            &rng.word_or(
                &["", "5", "05", "-1", "magic", "a b"],
                &["\u{b5}m", "\u{ff15}"],
            ),
        ),
    };
    constant.ora_api = rng.chance(50);
    constant.first_release = rng.chance(60).then(|| words::old_date(rng));
    draft.both(constant, rng);
}

pub fn add_alias(draft: &mut Draft, rng: &mut Rng) {
    let name = draft.name(rng);
    let underlying = type_word(rng);
    draft.both(make::alias(&name, &underlying), rng);
}

pub fn add_enum(draft: &mut Draft, rng: &mut Rng) {
    let name = draft.name(rng);
    let mut e = make::enumeration(&name, *rng.pick(&[0, 1, 1, 2, 4, 300]));
    e.ora_api = rng.chance(50);
    e.first_release = rng.chance(60).then(|| words::old_date(rng));
    for _ in 0..rng.below(3) {
        e = e.value(&draft.name(rng), words::integer(rng));
        let value = e.values.last_mut().expect("just added");
        value.first_release = rng.chance(30).then(|| words::old_date(rng));
    }
    draft.both(e, rng);
}

pub fn add_bit_field(draft: &mut Draft, rng: &mut Rng) {
    let name = draft.name(rng);
    let mut b = make::bit_field(&name, *rng.pick(&[0, 1, 2, 4]), &words::old_date(rng));
    for _ in 0..rng.below(3) {
        let bit = *rng.pick(&[0, 1, 2, 7, 31, u32::MAX]);
        let width = *rng.pick(&[None, None, Some(1), Some(2), Some(0), Some(u32::MAX)]);
        b = b.member(&draft.name(rng), bit, width);
        let member = b.members.last_mut().expect("just added");
        member.first_release = rng.chance(30).then(|| words::old_date(rng));
    }
    draft.both(b, rng);
}

/// Add a structure that fills a slot still free, if there is one.
pub fn add_root(draft: &mut Draft, rng: &mut Rng) {
    let taken = |slot: &str| (draft.current.structs()).any(|s| s.slot.as_deref() == Some(slot));
    let free: Vec<&str> = SLOTS.into_iter().filter(|slot| !taken(slot)).collect();
    if free.is_empty() {
        return;
    }
    let slot = *rng.pick(&free);
    let (name, constant) = (draft.name(rng), draft.name(rng));
    let generation = *rng.pick(&[0, 1, 3, 7, 4_294_967_294]);
    draft.both(make::integer(&constant, generation), rng);
    if rng.chance(30) {
        draft.both(make::version(&name, generation as u32), rng);
    }
    let mut root = make::root(&name, slot, &constant);
    root.fields = fields(draft, 3, rng);
    draft.both(root, rng);
}

/// Add a structure, mostly with a pointer to it from one that is there.
pub fn add_struct(draft: &mut Draft, rng: &mut Rng) {
    let name = draft.name(rng);
    let mut s = make::structure(&name);
    s.fields = fields(draft, 3, rng);
    draft.both(s, rng);
    refer(draft, &name, rng);
}

/// Add a family, standalone or mostly with a pointer to it.
pub fn add_family(draft: &mut Draft, rng: &mut Rng) {
    let name = draft.name(rng);
    let mut f = make::family(&name);
    f.discriminant_field = draft.name(rng);
    f.discriminant_type = enum_name(&draft.current, rng);
    f.param_len_field = draft.name(rng);
    f.param_len_type = (rng.chance(60)).then(|| rng.word(&["u8", "u16", "u32", "u64", ""]));
    f.standalone = rng.chance(40);
    f.common_fields = fields(draft, 1, rng);
    for _ in 0..rng.below(3) {
        let fields = fields(draft, 1, rng);
        f = f.variant(&draft.name(rng), &fields);
    }
    let standalone = f.standalone;
    draft.both(f, rng);
    if !standalone {
        refer(draft, &name, rng);
    }
}

pub fn add_key(draft: &mut Draft, rng: &mut Rng) {
    let name = draft.name(rng);
    draft.both(make::key(&name, &words::old_date(rng)), rng);
}

/// Mostly give some structure of both contents a pointer to a name.
fn refer(draft: &mut Draft, name: &str, rng: &mut Rng) {
    let both = |s: &&Struct| draft.released.structs().any(|was| was.name == s.name);
    let holders = draft.current.structs().filter(both);
    let holders: Vec<String> = holders.map(|s| s.name.clone()).collect();
    if holders.is_empty() || rng.chance(20) {
        return;
    }
    let from = rng.pick(&holders);
    let field = reference(&draft.name(rng), name, rng);
    draft.released.the_struct(from).fields.push(field.clone());
    draft.append(from, field);
}

/// A field that refers to a name by one of the five referring kinds.
pub fn reference(field: &str, to: &str, rng: &mut Rng) -> Field {
    let kind = *rng.pick(&REFERENCES);
    match kind.contains("array") {
        true => make::field(field, kind).each(to),
        false => make::field(field, kind).of(to),
    }
}

/// Up to `most` fields of the sixteen kinds, of types that are there or not.
pub fn fields(draft: &mut Draft, most: usize, rng: &mut Rng) -> Vec<Field> {
    (0..rng.below(most + 1))
        .map(|_| {
            let name = draft.name(rng);
            let mut field = any_field(&draft.current, &name, rng);
            if rng.chance(10) {
                let key = draft.name(rng);
                field = field.keyed(&key, &words::old_date(rng));
            }
            field
        })
        .collect()
}

/// A field of a drawn kind among the sixteen.
pub fn any_field(content: &Content, name: &str, rng: &mut Rng) -> Field {
    match rng.below(11) {
        0..=2 => make::scalar(name, &type_word(rng)),
        3 => make::field(name, "enum").of(&enum_name(content, rng)),
        4 => make::field(name, "type_alias").of(&alias_name(content, rng)),
        5 => make::field(name, "bitfield").of(&bit_field_name(content, rng)),
        6 => make::array(name, &type_word(rng), rng.below(5) as u32),
        7 => make::array2d(
            name,
            &type_word(rng),
            rng.below(4) as u32,
            rng.below(4) as u32,
        ),
        8 => make::padding(name, rng.below(6) as u32),
        9 => make::field(name, &rng.word(&POINTERS)).of(&struct_name(content, rng)),
        _ => make::field(
            name,
            &rng.word(&["string", "scalar", "padding", "inline_array"]),
        ),
    }
}

/// Mostly one of the four primitives.
pub fn type_word(rng: &mut Rng) -> String {
    match rng.chance(90) {
        true => rng.word(&PRIMITIVES),
        false => words::strange_type(rng),
    }
}

fn enum_name(content: &Content, rng: &mut Rng) -> String {
    named(
        content,
        |item| match item {
            Item::Enum(e) => Some(&e.name),
            _ => None,
        },
        rng,
    )
}

fn alias_name(content: &Content, rng: &mut Rng) -> String {
    named(
        content,
        |item| match item {
            Item::Alias(a) => Some(&a.name),
            _ => None,
        },
        rng,
    )
}

fn bit_field_name(content: &Content, rng: &mut Rng) -> String {
    named(
        content,
        |item| match item {
            Item::BitField(b) => Some(&b.name),
            _ => None,
        },
        rng,
    )
}

fn struct_name(content: &Content, rng: &mut Rng) -> String {
    named(
        content,
        |item| match item {
            Item::Struct(s) => Some(&s.name),
            _ => None,
        },
        rng,
    )
}

/// The name of a drawn item among those that `name` answers, or of nobody.
fn named(content: &Content, name: fn(&Item) -> Option<&String>, rng: &mut Rng) -> String {
    let names: Vec<&String> = content.items.iter().filter_map(name).collect();
    match names.is_empty() || rng.chance(10) {
        true => "nobody".into(),
        false => rng.pick(&names).to_string(),
    }
}
