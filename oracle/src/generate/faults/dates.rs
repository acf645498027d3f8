//! Faults of the first releases: of constants, enums, values and keys, and of
//! bit fields and members.

use super::Fault;
use crate::generate::draft::Draft;
use crate::generate::{make, words};
use crate::rng::Rng;

pub fn forms(verdict: u32) -> &'static [Fault] {
    match verdict {
        16 => &[value_undated],
        17 => &[
            constant_late,
            constant_late_in_api,
            enum_late,
            value_late,
            field_key_late,
            key_late,
        ],
        18 => &[
            constant_redated,
            enum_redated,
            value_redated,
            value_dated_against_enum,
            value_left_to_enum,
            key_redated,
            field_key_redated,
        ],
        19 => &[
            constant_backdated,
            enum_backdated,
            value_backdated,
            key_backdated,
        ],
        31 => &[bits_late, member_late, member_late_by_field],
        _ => &[bits_redated, member_redated, member_redated_by_field],
    }
}

/// Two dates that differ from each other and from the current release.
fn two_dates(rng: &mut Rng) -> (String, String) {
    let first = words::old_date(rng);
    loop {
        let second = words::old_date(rng);
        if second != first {
            return (first, second);
        }
    }
}

/// An enum of the plugin API in both contents, dated, with one value.
fn dated_enum(draft: &mut Draft, date: &str, rng: &mut Rng) -> String {
    let name = draft.name(rng);
    let value = draft.name(rng);
    let e = make::enumeration(&name, 1).ora().dated(date);
    draft.both(e.value(&value, words::integer(rng)), rng);
    name
}

fn value_undated(draft: &mut Draft, rng: &mut Rng) {
    let name = dated_enum(draft, &words::old_date(rng), rng);
    let value = draft.name(rng);
    let e = draft.current.the_enum(&name);
    *e = e.clone().value(&value, words::integer(rng));
}

fn constant_late(draft: &mut Draft, rng: &mut Rng) {
    let name = draft.name(rng);
    let late = make::integer(&name, 1).ora().dated(&words::old_date(rng));
    draft.add(late, rng);
}

/// The copy has the constant, with the same date, but not in the plugin API.
fn constant_late_in_api(draft: &mut Draft, rng: &mut Rng) {
    let name = draft.name(rng);
    draft.both(make::integer(&name, 1).dated(&words::old_date(rng)), rng);
    draft.current.the_constant(&name).ora_api = true;
}

fn enum_late(draft: &mut Draft, rng: &mut Rng) {
    let name = draft.name(rng);
    let late = make::enumeration(&name, 1).ora();
    let late = late.dated(&words::old_date(rng));
    draft.add(late, rng);
}

fn value_late(draft: &mut Draft, rng: &mut Rng) {
    let (first, second) = two_dates(rng);
    let name = dated_enum(draft, &first, rng);
    let value = draft.name(rng);
    let e = draft.current.the_enum(&name);
    *e = e.clone().dated_value(&value, words::integer(rng), &second);
}

fn field_key_late(draft: &mut Draft, rng: &mut Rng) {
    let (name, field, key) = (draft.name(rng), draft.name(rng), draft.name(rng));
    let field = make::scalar(&field, "u8").keyed(&key, &words::old_date(rng));
    draft.add(make::structure(&name).field(field), rng);
}

fn key_late(draft: &mut Draft, rng: &mut Rng) {
    let name = draft.name(rng);
    draft.add(make::key(&name, &words::old_date(rng)), rng);
}

fn constant_redated(draft: &mut Draft, rng: &mut Rng) {
    let (first, second) = two_dates(rng);
    let name = draft.name(rng);
    draft.both(make::integer(&name, 1).ora().dated(&first), rng);
    draft.current.the_constant(&name).first_release = Some(second);
}

fn enum_redated(draft: &mut Draft, rng: &mut Rng) {
    let (first, second) = two_dates(rng);
    let name = dated_enum(draft, &first, rng);
    draft.current.the_enum(&name).first_release = Some(second);
}

fn value_redated(draft: &mut Draft, rng: &mut Rng) {
    let (first, second) = two_dates(rng);
    let name = dated_enum(draft, &words::old_date(rng), rng);
    draft.released.the_enum(&name).values[0].first_release = Some(first);
    draft.current.the_enum(&name).values[0].first_release = Some(second);
}

fn value_dated_against_enum(draft: &mut Draft, rng: &mut Rng) {
    let (first, second) = two_dates(rng);
    let name = dated_enum(draft, &first, rng);
    draft.current.the_enum(&name).values[0].first_release = Some(second);
}

fn value_left_to_enum(draft: &mut Draft, rng: &mut Rng) {
    let (first, second) = two_dates(rng);
    let name = dated_enum(draft, &first, rng);
    draft.released.the_enum(&name).values[0].first_release = Some(second);
}

fn key_redated(draft: &mut Draft, rng: &mut Rng) {
    let (first, second) = two_dates(rng);
    let name = draft.name(rng);
    draft.both(make::key(&name, &first), rng);
    draft.current.the_key(&name).first_release = Some(second);
}

/// The key was on a field in the copy and is an unstored one now.
fn field_key_redated(draft: &mut Draft, rng: &mut Rng) {
    let (first, second) = two_dates(rng);
    let (name, field, key) = (draft.name(rng), draft.name(rng), draft.name(rng));
    let field = make::scalar(&field, "u8").keyed(&key, &first);
    let holder = make::structure(&name).field(field);
    rng.insert(&mut draft.released.items, holder.into());
    draft.add(make::key(&key, &second), rng);
}

fn constant_backdated(draft: &mut Draft, rng: &mut Rng) {
    let name = draft.name(rng);
    draft.both(make::integer(&name, 1).ora(), rng);
    let now = draft.now();
    draft.current.the_constant(&name).first_release = Some(now);
}

fn enum_backdated(draft: &mut Draft, rng: &mut Rng) {
    let now = draft.now();
    let name = dated_enum(draft, &now, rng);
    draft.released.the_enum(&name).first_release = None;
}

fn value_backdated(draft: &mut Draft, rng: &mut Rng) {
    let now = draft.now();
    let name = dated_enum(draft, &words::old_date(rng), rng);
    draft.released.the_enum(&name).first_release = None;
    draft.current.the_enum(&name).values[0].first_release = Some(now);
}

fn key_backdated(draft: &mut Draft, rng: &mut Rng) {
    let now = draft.now();
    let name = draft.name(rng);
    draft.both(make::key(&name, &now), rng);
    draft.released.the_key(&name).first_release = None;
}

/// A dated bit field in both contents, with one member.
fn dated_bits(draft: &mut Draft, date: &str, rng: &mut Rng) -> String {
    let name = draft.name(rng);
    let member = draft.name(rng);
    draft.both(
        make::bit_field(&name, 1, date).member(&member, 0, None),
        rng,
    );
    name
}

fn bits_late(draft: &mut Draft, rng: &mut Rng) {
    let name = draft.name(rng);
    draft.add(make::bit_field(&name, 1, &words::old_date(rng)), rng);
}

fn member_late(draft: &mut Draft, rng: &mut Rng) {
    let (first, second) = two_dates(rng);
    let name = dated_bits(draft, &first, rng);
    let member = draft.name(rng);
    let b = draft.current.the_bit_field(&name);
    *b = b.clone().dated_member(&member, 3, &second);
}

fn member_late_by_field(draft: &mut Draft, rng: &mut Rng) {
    let name = dated_bits(draft, &words::old_date(rng), rng);
    let member = draft.name(rng);
    let b = draft.current.the_bit_field(&name);
    *b = b.clone().member(&member, 3, None);
}

fn bits_redated(draft: &mut Draft, rng: &mut Rng) {
    let (first, second) = two_dates(rng);
    let name = dated_bits(draft, &first, rng);
    draft.current.the_bit_field(&name).first_release = Some(second);
}

fn member_redated(draft: &mut Draft, rng: &mut Rng) {
    let (first, second) = two_dates(rng);
    let name = dated_bits(draft, &words::old_date(rng), rng);
    draft.released.the_bit_field(&name).members[0].first_release = Some(first);
    draft.current.the_bit_field(&name).members[0].first_release = Some(second);
}

fn member_redated_by_field(draft: &mut Draft, rng: &mut Rng) {
    let (first, second) = two_dates(rng);
    let name = dated_bits(draft, &first, rng);
    let side = match rng.chance(50) {
        true => &mut draft.released,
        false => &mut draft.current,
    };
    side.the_bit_field(&name).members[0].first_release = Some(second);
}
