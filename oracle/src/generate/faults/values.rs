//! Faults of constants, enums and bit fields.

use super::Fault;
use crate::generate::draft::Draft;
use crate::generate::{make, words};
use crate::model::{BitField, Constant, Enum, Item, Value};
use crate::rng::Rng;

pub fn forms(verdict: u32) -> &'static [Fault] {
    match verdict {
        20 => &[constant_gone],
        21 => &[constant_changed, generation_unreadable],
        22 => &[enum_gone],
        23 => &[value_renumbered],
        24 => &[value_renamed],
        25 => &[value_gone],
        26 => &[bit_field_gone],
        27 => &[member_renamed],
        28 => &[member_gone],
        29 => &[member_moved],
        _ => &[member_widened],
    }
}

fn constant_gone(draft: &mut Draft, rng: &mut Rng) {
    let name = draft.name(rng);
    draft.both(make::integer(&name, words::integer(rng)), rng);
    draft.drop_items(|item| matches!(item, Item::Constant(c) if c.name == name));
}

fn constant_changed(draft: &mut Draft, rng: &mut Rng) {
    let values = [
        (Value::Integer(5), Value::Integer(6)),
        (Value::Integer(5), Value::Text("05".into())),
        (Value::Text("5 ".into()), Value::Integer(5)),
        (Value::Text("a".into()), Value::Text("A".into())),
        (Value::Text("".into()), Value::Text(" ".into())),
        (Value::Integer(i64::MIN), Value::Integer(i64::MAX)),
        (Value::Integer(-1), Value::Integer(1)),
    ];
    let (was, is) = rng.pick(&values).clone();
    let name = draft.name(rng);
    let constant = make::integer(&name, 0);
    let was = Constant {
        value: was,
        ..constant.clone()
    };
    rng.insert(&mut draft.released.items, was.into());
    draft.add(
        Constant {
            value: is,
            ..constant
        },
        rng,
    );
}

/// A generation constant that is no generation any more is held like others.
fn generation_unreadable(draft: &mut Draft, rng: &mut Rng) {
    let (name, constant) = (draft.name(rng), draft.name(rng));
    draft.both(make::root(&name, &rng.word(&words::SLOTS), &constant), rng);
    rng.insert(
        &mut draft.released.items,
        make::integer(&constant, 3).into(),
    );
    let now = match rng.below(3) {
        0 => make::integer(&constant, -1),
        1 => make::integer(&constant, 4_294_967_296),
        _ => make::text(&constant, "4"),
    };
    draft.add(now, rng);
}

/// An enum in both contents with two values, the first to be touched.
fn enumeration<'d>(draft: &'d mut Draft, rng: &mut Rng) -> &'d mut Enum {
    let name = draft.name(rng);
    let (first, second) = (draft.name(rng), draft.name(rng));
    let numbers = *rng.pick(&[(0, 1), (-5, 5), (i64::MIN, i64::MAX), (3, 2)]);
    let e = make::enumeration(&name, 1);
    draft.both(e.value(&first, numbers.0).value(&second, numbers.1), rng);
    draft.current.the_enum(&name)
}

fn enum_gone(draft: &mut Draft, rng: &mut Rng) {
    let name = enumeration(draft, rng).name.clone();
    draft.drop_items(|item| matches!(item, Item::Enum(e) if e.name == name));
}

fn value_renumbered(draft: &mut Draft, rng: &mut Rng) {
    let number = *rng.pick(&[7, -7, 4_294_967_296]);
    enumeration(draft, rng).values[0].value = number;
}

fn value_renamed(draft: &mut Draft, rng: &mut Rng) {
    let name = draft.name(rng);
    let number = rng.below(2);
    enumeration(draft, rng).values[number].name = name;
}

fn value_gone(draft: &mut Draft, rng: &mut Rng) {
    let number = rng.below(2);
    enumeration(draft, rng).values.remove(number);
}

/// A bit field in both contents with two members, the first to be touched.
fn bit_field<'d>(draft: &'d mut Draft, rng: &mut Rng) -> &'d mut BitField {
    let name = draft.name(rng);
    let (first, second) = (draft.name(rng), draft.name(rng));
    let width = *rng.pick(&[None, Some(1), Some(3)]);
    let b = make::bit_field(&name, 1, &words::old_date(rng));
    draft.both(b.member(&first, 0, width).member(&second, 5, None), rng);
    draft.current.the_bit_field(&name)
}

fn bit_field_gone(draft: &mut Draft, rng: &mut Rng) {
    let name = bit_field(draft, rng).name.clone();
    draft.drop_items(|item| matches!(item, Item::BitField(b) if b.name == name));
}

fn member_renamed(draft: &mut Draft, rng: &mut Rng) {
    let name = draft.name(rng);
    let explicit = rng.chance(50);
    let member = &mut bit_field(draft, rng).members[0];
    member.name = name;
    if explicit {
        member.width = Some(member.width.unwrap_or(1));
    }
}

fn member_gone(draft: &mut Draft, rng: &mut Rng) {
    let name = draft.name(rng);
    let replaced = rng.chance(50);
    let b = bit_field(draft, rng);
    let member = b.members.remove(0);
    if replaced {
        *b = b.clone().member(&name, member.bit, Some(17));
    }
}

fn member_moved(draft: &mut Draft, rng: &mut Rng) {
    let bit = *rng.pick(&[1, 7, u32::MAX]);
    let width = rng.chance(30).then_some(9);
    let member = &mut bit_field(draft, rng).members[0];
    member.bit = bit;
    member.width = width.or(member.width);
}

fn member_widened(draft: &mut Draft, rng: &mut Rng) {
    let width = *rng.pick(&[0, 2, u32::MAX]);
    bit_field(draft, rng).members[0].width = Some(width);
}
