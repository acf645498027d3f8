//! Verdicts 12 to 19, 31 and 32: the order of releases, and the release in which something arrived.

use super::{first_of, last_of, About, Found};
use crate::diff::schema::{BitField, Enum, Schema, Text};

const NOW_UNREADABLE: u32 = 12;
const BEFORE_NAMING: u32 = 13;
const WAS_UNREADABLE: u32 = 14;
const NOT_LATER: u32 = 15;
const VALUE_UNDATED: u32 = 16;
const LATE: u32 = 17;
const REDATED: u32 = 18;
const BACKDATED: u32 = 19;
const BITS_LATE: u32 = 31;
const BITS_REDATED: u32 = 32;

/// The release in which a schema first names its own.
const FIRST_NAMING: [u32; 3] = [0, 8, 0];

/// A release as three numbers, each written the one way there is.
fn numbers(release: &[u8]) -> Option<[u32; 3]> {
    let decimal =
        |part: &&[u8]| part.iter().all(u8::is_ascii_digit) && (part.len() == 1 || !part.starts_with(b"0"));
    let number = |part: &[u8]| std::str::from_utf8(part).ok()?.parse().ok();
    let parts = release.split(|byte| *byte == b'.').map(|part| number(Some(part).filter(decimal)?));
    parts.collect::<Option<Vec<u32>>>()?.try_into().ok()
}

/// The current release is readable and above the copy's.
pub fn order<'a>(is: &Schema<'a>, was: &Schema<'a>, found: &mut Found<'a>) {
    let Some(now) = numbers(is.release.unwrap_or_default()) else {
        return found.add(NOW_UNREADABLE, About::Head);
    };
    match was.release.map(numbers) {
        None => found.unless(now >= FIRST_NAMING, BEFORE_NAMING, About::Head),
        Some(None) => found.add(WAS_UNREADABLE, About::Head),
        Some(Some(then)) => found.unless(then < now, NOT_LATER, About::Head),
    }
}

/// What the copy says of an item: nothing where it has none such, or the release it names, if any.
type Shipped<'a> = Option<Text<'a>>;

/// Which verdict the first release of an item of the plugin API breaks.
fn arrival(now: &[u8], names: &[u8], shipped: Shipped) -> Option<u32> {
    let (holds, number) = match shipped {
        None => (names == now, LATE),
        Some(Some(was)) => (names == was, REDATED),
        Some(None) => (names != now, BACKDATED),
    };
    (!holds).then_some(number)
}

/// The constants, enums, values and plugin keys of the plugin API.
pub fn first_releases<'a>(is: &Schema<'a>, was: &Schema<'a>, found: &mut Found<'a>) {
    let now = is.release.unwrap_or_default();
    let constants = last_of(was.constants.iter().filter(|one| one.api), |one| one.name);
    for one in is.constants.iter().filter(|one| one.api) {
        let shipped = constants.get(one.name).map(|was| was.since);
        let broken = one.since.and_then(|names| arrival(now, names, shipped));
        found.add_any(broken, About::Current(one.at));
    }
    let enums = last_of(was.enums.iter().filter(|one| one.api), |one| one.name);
    for one in is.enums.iter().filter(|one| one.api) {
        enum_arrival(now, one, enums.get(one.name).copied(), found);
    }
    let keys = last_of(&was.keys, |one| one.name);
    for one in &is.keys {
        let shipped = keys.get(one.name).map(|was| was.since);
        let broken = arrival(now, one.since.unwrap_or_default(), shipped);
        found.add_any(broken, About::Current(one.at));
    }
}

/// An enum and its values; without a first release it is passed over with them.
fn enum_arrival<'a>(now: &[u8], one: &Enum<'a>, was: Option<&Enum<'a>>, found: &mut Found<'a>) {
    let Some(names) = one.since else { return };
    let broken = arrival(now, names, was.map(|was| was.since));
    found.add_any(broken, About::Current(one.at));
    let values = was.map(|was| first_of(&was.values, |value| value.name)).unwrap_or_default();
    for value in &one.values {
        let release = value.since.unwrap_or(names);
        let shipped = values.get(value.name).map(|old| old.since.or_else(|| was.and_then(|was| was.since)));
        let undated = shipped.is_none() && value.since.is_none() && release != now;
        let broken = if undated { Some(VALUE_UNDATED) } else { arrival(now, release, shipped) };
        found.add_any(broken, About::Current(value.at));
    }
}

/// The releases of bit fields and their members.
pub fn bit_fields<'a>(is: &Schema<'a>, was: &Schema<'a>, found: &mut Found<'a>) {
    let now = is.release.unwrap_or_default();
    let shipped = first_of(&was.bit_fields, |one| one.name);
    for one in &is.bit_fields {
        let was = shipped.get(one.name).copied();
        let release = one.since.unwrap_or_default();
        let broken = arrived(now, release, was.map(|was| was.since));
        found.add_any(broken, About::Current(one.at));
        members(now, one, was, found);
    }
}

fn members<'a>(now: &[u8], one: &BitField<'a>, was: Option<&BitField<'a>>, found: &mut Found<'a>) {
    let shipped = was.map(|was| first_of(&was.members, |member| member.name)).unwrap_or_default();
    for member in &one.members {
        let release = member.since.or(one.since).unwrap_or_default();
        let old = shipped.get(member.name).map(|old| old.since.or_else(|| was.and_then(|was| was.since)));
        let broken = arrived(now, release, old);
        found.add_any(broken, About::Current(member.at));
    }
}

/// Which verdict the release of a bit field or a member breaks.
fn arrived(now: &[u8], release: &[u8], shipped: Shipped) -> Option<u32> {
    match shipped {
        None => (release != now).then_some(BITS_LATE),
        Some(Some(was)) => (release != was).then_some(BITS_REDATED),
        Some(None) => None,
    }
}
