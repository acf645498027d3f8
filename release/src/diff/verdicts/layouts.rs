//! Verdicts 33 to 39: the layouts of the last release field by field, and standalone families.

use super::{first_of, About, Found};
use crate::diff::rows::Type;
use crate::diff::schema::Schema;
use crate::diff::State;

const TYPE_GONE: u32 = 33;
const STANDING_CHANGED: u32 = 38;
const SHIPPED_FAMILY_CHANGED: u32 = 39;

/// The verdict that a mark of a row stands for, where the released field is no padding.
fn number(mark: &str) -> Option<u32> {
    match mark {
        "gone" => Some(34),
        "moved" => Some(35),
        "resized" => Some(36),
        "redescribed" => Some(37),
        _ => None,
    }
}

/// Every released layout, in byte order of the whole name; padding is held to nothing.
pub fn fields<'a>(types: &[Type<'a>], found: &mut Found<'a>) {
    for one in types {
        if one.state == State::Gone {
            found.add(TYPE_GONE, About::Type(one.name));
            continue;
        }
        for (at, row) in one.rows.iter().enumerate() {
            if row.released.is_some_and(|field| !field.padding) {
                let numbers = row.marks().into_iter().filter_map(number);
                numbers.for_each(|number| found.add(number, About::Row(one.name, at)));
            }
        }
    }
}

/// Every current family: whether it stands alone as it did, and if it does, that its shipped layouts are the same.
pub fn standalone<'a>(is: &Schema<'a>, was: &Schema<'a>, found: &mut Found<'a>) {
    let shipped = first_of(&was.families, |one| one.name);
    for one in &is.families {
        let stood = shipped.get(one.name).is_none_or(|old| old.standalone == one.standalone);
        found.unless(stood, STANDING_CHANGED, About::Current(one.at));
        if !one.standalone {
            continue;
        }
        let variants = one.variants.iter().map(|variant| [one.name, b"::", variant].concat());
        for name in std::iter::once(one.name.to_vec()).chain(variants) {
            let Some((name, new)) = is.layouts.get_key_value(&name) else { continue };
            let kept = was.layouts.get(name).is_none_or(|old| old == new);
            found.unless(kept, SHIPPED_FAMILY_CHANGED, About::Type(name));
        }
    }
}
