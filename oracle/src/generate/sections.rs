//! Pairs with many sections, to be moved as W-214 of document 02 moves them.

use super::base::{
    add_alias, add_bit_field, add_constant, add_enum, add_family, add_key, add_root, add_struct,
};
use super::draft::Draft;
use super::encode::encode;
use super::steps::{self, Step};
use super::{Pair, base, faults, make, pair, words};
use crate::model::{Item, Struct, Value};
use crate::rng::Rng;
use crate::verdicts::{FIRST_VERDICT, LAST_VERDICT};

/// Sections that both contents get.
const ADDED: [Step; 9] = [
    add_constant,
    add_alias,
    add_enum,
    add_bit_field,
    add_root,
    add_struct,
    add_family,
    add_key,
    add_parts,
];

/// Verdicts of one pass that goes by the order of a list: with several of their
/// faults the first verdict depends on which comes first.
const PASSES: [&[u32]; 5] = [
    &[16, 17, 18, 19],
    &[22, 23, 24, 25],
    &[26, 27, 28, 29, 30],
    &[31, 32],
    &[38, 39],
];

/// A pair to be moved: about as many accepted as refused, some of any aim.
pub fn sectioned(rng: &mut Rng) -> Pair {
    match rng.below(100) {
        0..=46 => encoded(&accepted(rng), rng),
        47..=93 => encoded(&refused(rng), rng),
        _ => pair(rng),
    }
}

/// A pair in which a name or slot stands twice, in one order on both sides.
pub fn doubled(rng: &mut Rng) -> Pair {
    let mut draft = accepted(rng);
    let fresh = draft.name(rng);
    let named = (draft.released.items.iter()).filter(|item| !matches!(item, Item::Version(_)));
    let named: Vec<&Item> = named.collect();
    let twin = match named.is_empty() {
        true => make::slotted(&fresh, "info").into(),
        false => twin((*rng.pick(&named)).clone(), fresh, rng),
    };
    for content in [&mut draft.released, &mut draft.current] {
        content.items.push(twin.clone());
    }
    encoded(&draft, rng)
}

fn encoded(draft: &Draft, rng: &mut Rng) -> Pair {
    Pair {
        current: encode(&draft.current, rng),
        released: encode(&draft.released, rng),
    }
}

/// An accepted pair of up to a dozen sections and some steps.
fn accepted(rng: &mut Rng) -> Draft {
    let mut draft = base::base(rng);
    for _ in 0..rng.between(3, 8) {
        let add = *rng.pick(&ADDED);
        add(&mut draft, rng);
    }
    for _ in 0..rng.between(1, 3) {
        steps::take(&mut draft, rng);
    }
    draft
}

/// Add an enum, a bit field or a standalone family with several parts.
fn add_parts(draft: &mut Draft, rng: &mut Rng) {
    let (name, count) = (draft.name(rng), rng.between(2, 4) as u32);
    let names: Vec<String> = (0..count).map(|_| draft.name(rng)).collect();
    let numbered = names.iter().zip(0..);
    match rng.below(4) {
        0 => {
            let whole = numbered.fold(make::enumeration(&name, 1), |e, (name, at)| {
                e.value(name, at)
            });
            draft.both(whole, rng);
        }
        1 => {
            let empty = make::bit_field(&name, 4, &words::old_date(rng));
            let whole = numbered.fold(empty, |b, (name, at)| b.member(name, at as u32, None));
            draft.both(whole, rng);
        }
        _ => {
            let whole = names
                .iter()
                .fold(make::family(&name).standalone(), |f, name| {
                    f.variant(name, &[make::scalar("n", "u16")])
                });
            draft.both(whole, rng);
        }
    }
}

/// Such a pair with faults: mostly several of one pass, else one or two of any.
fn refused(rng: &mut Rng) -> Draft {
    let mut draft = accepted(rng);
    match rng.chance(60) {
        true => {
            let pass = *rng.pick(&PASSES);
            for _ in 0..rng.between(2, 4) {
                faults::apply(*rng.pick(pass), &mut draft, rng);
            }
        }
        false => {
            for _ in 0..rng.between(1, 2) {
                let verdict = rng.between(FIRST_VERDICT as usize, LAST_VERDICT as usize);
                faults::apply(verdict as u32, &mut draft, rng);
            }
        }
    }
    draft
}

/// An item of this one's name, or of its slot, and otherwise another; or one with
/// a fresh name that has something twice.
fn twin(item: Item, fresh: String, rng: &mut Rng) -> Item {
    match item {
        Item::Constant(mut c) => {
            c.value = Value::Integer(words::integer(rng));
            c.into()
        }
        Item::Alias(a) => make::alias(&a.name, &base::type_word(rng)).into(),
        Item::Enum(mut e) if e.values.is_empty() || rng.chance(50) => {
            e.values.clear();
            e.into()
        }
        Item::BitField(mut b) if b.members.is_empty() || rng.chance(50) => {
            b.members.clear();
            b.into()
        }
        Item::Struct(mut s) if s.slot.is_none() || rng.chance(50) => {
            s.slot = None;
            s.field(make::scalar(&fresh, "u8")).into()
        }
        Item::Family(f) if f.variants.is_empty() || rng.chance(50) => {
            f.common(make::scalar(&fresh, "u8")).into()
        }
        Item::Key(k) => make::key(&k.name, &words::old_date(rng)).into(),
        other => renamed(other, fresh),
    }
}

/// An item of another name: a structure in the slot of this one, or an enum, bit
/// field or family that has its first part twice.
fn renamed(item: Item, fresh: String) -> Item {
    match item {
        Item::Enum(mut e) => {
            let value = e.values[0].clone();
            e.name = fresh;
            e.value(&value.name, value.value.wrapping_add(1)).into()
        }
        Item::BitField(mut b) => {
            let member = b.members[0].clone();
            b.name = fresh;
            b.member(&member.name, member.bit.wrapping_add(1), None)
                .into()
        }
        Item::Struct(s) => Struct { name: fresh, ..s }.into(),
        Item::Family(mut f) => {
            let discriminant = f.variants[0].discriminant.clone();
            let field = make::scalar(&fresh, "u8");
            f.name = fresh;
            f.variant(&discriminant, &[field]).into()
        }
        other => other,
    }
}
