//! Steps from one release to the next that the check accepts.

use super::base;
use super::draft::Draft;
use super::{make, words};
use crate::answers::verdict;
use crate::model::{Item, Value};
use crate::rng::Rng;

pub type Step = fn(&mut Draft, &mut Rng);

/// Real changes of a release.
pub const CHANGES: [Step; 17] = [
    new_constant,
    new_alias,
    new_enum,
    new_value,
    new_bit_field,
    new_member,
    new_field,
    new_field,
    field_from_padding,
    new_struct,
    new_family,
    new_variant,
    new_key,
    new_root,
    grown_padding,
    raised_alone,
    removed_padding,
];

/// Changes that no pass notices.
pub const UNNOTICED: [Step; 17] = [
    key_gone,
    constant_leaves_api,
    enum_leaves_api,
    alias_gone,
    empty_enum_gone,
    unused_resized,
    slot_lost,
    entries_gone,
    constant_retyped,
    reference_moved,
    items_swapped,
    default_spelled_out,
    undated_before,
    generation_renamed,
    unseen_date_changed,
    unseen_numbers_changed,
    text_becomes_generation,
];

/// Take a drawn step if the pair stays accepted.
pub fn take(draft: &mut Draft, rng: &mut Rng) {
    let next = stepped(draft, rng);
    adopt(draft, next);
}

/// Take a drawn step that leaves the copy as it is, if the pair stays accepted.
pub fn take_in_current(draft: &mut Draft, rng: &mut Rng) {
    let mut next = stepped(draft, rng);
    next.released = draft.released.clone();
    adopt(draft, next);
}

fn stepped(draft: &Draft, rng: &mut Rng) -> Draft {
    let step = match rng.chance(70) {
        true => *rng.pick(&CHANGES),
        false => *rng.pick(&UNNOTICED),
    };
    let mut next = draft.clone();
    step(&mut next, rng);
    next
}

fn adopt(draft: &mut Draft, next: Draft) {
    if verdict(&next.current, &next.released).number == 0 {
        *draft = next;
    }
}

fn new_constant(draft: &mut Draft, rng: &mut Rng) {
    let name = draft.name(rng);
    let mut constant = make::integer(&name, words::integer(rng));
    constant.ora_api = rng.chance(60);
    constant.first_release = match constant.ora_api {
        true => rng.chance(80).then(|| draft.now()),
        false => rng.chance(30).then(|| words::old_date(rng)),
    };
    draft.add(constant, rng);
}

fn new_alias(draft: &mut Draft, rng: &mut Rng) {
    let name = draft.name(rng);
    draft.add(make::alias(&name, &base::type_word(rng)), rng);
}

fn new_enum(draft: &mut Draft, rng: &mut Rng) {
    let (name, value, now) = (draft.name(rng), draft.name(rng), draft.now());
    let mut e = make::enumeration(&name, 1).value(&value, words::integer(rng));
    e.ora_api = rng.chance(60);
    if e.ora_api {
        e = e.dated(&now);
        e.values[0].first_release = rng.chance(50).then_some(now);
    }
    draft.add(e, rng);
}

fn new_value(draft: &mut Draft, rng: &mut Rng) {
    if draft.current.enums().count() == 0 {
        base::add_enum(draft, rng);
    }
    let (name, now) = (draft.name(rng), draft.now());
    let nth = rng.below(draft.current.enums().count());
    let e = draft.current.enums_mut().nth(nth).expect("below the count");
    let number = words::integer(rng);
    *e = match e.ora_api {
        true => e.clone().dated_value(&name, number, &now),
        false => e.clone().value(&name, number),
    };
}

fn new_bit_field(draft: &mut Draft, rng: &mut Rng) {
    let (name, member, now) = (draft.name(rng), draft.name(rng), draft.now());
    draft.add(
        make::bit_field(&name, 1, &now).member(&member, 0, None),
        rng,
    );
}

fn new_member(draft: &mut Draft, rng: &mut Rng) {
    if draft.current.bit_fields().count() == 0 {
        base::add_bit_field(draft, rng);
    }
    let (name, now) = (draft.name(rng), draft.now());
    let nth = rng.below(draft.current.bit_fields().count());
    let b = draft.current.bit_fields_mut().nth(nth);
    let b = b.expect("below the count");
    *b = b.clone().dated_member(&name, 6, &now);
}

/// The name of a current structure that a root owns; there is one afterwards.
fn owned_struct(draft: &mut Draft, rng: &mut Rng) -> String {
    if draft.owned().is_empty() {
        base::add_root(draft, rng);
    }
    let owned = draft.owned();
    let structs: Vec<String> = (draft.current.structs())
        .map(|s| s.name.clone())
        .filter(|name| owned.contains(name))
        .collect();
    rng.pick(&structs).clone()
}

fn new_field(draft: &mut Draft, rng: &mut Rng) {
    let (holder, name, key) = (owned_struct(draft, rng), draft.name(rng), draft.name(rng));
    let mut field = base::any_field(&draft.current, &name, rng);
    if rng.chance(30) {
        field = field.keyed(&key, &draft.now());
    }
    draft.append(&holder, field);
    draft.raise_for(&holder, rng);
}

/// A field taken out of the padding before a field that stays where it was.
fn field_from_padding(draft: &mut Draft, rng: &mut Rng) {
    let holder = owned_struct(draft, rng);
    let (gap, after, new) = (draft.name(rng), draft.name(rng), draft.name(rng));
    for content in [&mut draft.released, &mut draft.current] {
        let mut structs = content.structs_mut();
        let Some(s) = structs.find(|s| s.name == holder) else {
            return;
        };
        s.fields.push(make::padding(&gap, 4));
        s.fields.push(make::scalar(&after, "u16"));
    }
    let mut structs = draft.current.structs_mut();
    let s = structs.find(|s| s.name == holder).expect("just found");
    let at = s.fields.len() - 2;
    s.fields[at].size = Some(3);
    s.fields.insert(at, make::scalar(&new, "u8"));
    drop(structs);
    draft.raise_for(&holder, rng);
}

fn grown_padding(draft: &mut Draft, rng: &mut Rng) {
    let (holder, name) = (owned_struct(draft, rng), draft.name(rng));
    draft.append(&holder, make::padding(&name, rng.below(9) as u32));
    draft.raise_for(&holder, rng);
}

fn removed_padding(draft: &mut Draft, rng: &mut Rng) {
    let holder = owned_struct(draft, rng);
    let name = draft.name(rng);
    let mut structs = draft.released.structs_mut();
    let Some(s) = structs.find(|s| s.name == holder) else {
        return;
    };
    s.fields.push(make::padding(&name, 2));
    drop(structs);
    draft.raise_for(&holder, rng);
}

fn new_struct(draft: &mut Draft, rng: &mut Rng) {
    let holder = owned_struct(draft, rng);
    let (name, pointer) = (draft.name(rng), draft.name(rng));
    let mut s = make::structure(&name);
    s.fields = base::fields(draft, 2, rng);
    for field in &mut s.fields {
        field.key = None;
    }
    draft.add(s, rng);
    let pointer = base::reference(&pointer, &name, rng);
    draft.append(&holder, pointer);
    draft.raise_for(&holder, rng);
}

fn new_family(draft: &mut Draft, rng: &mut Rng) {
    let (name, pointer) = (draft.name(rng), draft.name(rng));
    let f = make::family(&name).variant("V", &[make::scalar("v", "u8")]);
    if rng.chance(50) {
        draft.add(f.standalone(), rng);
        return;
    }
    let holder = owned_struct(draft, rng);
    draft.add(f, rng);
    draft.append(&holder, make::field(&pointer, "tagged_fam_ptr").of(&name));
    draft.raise_for(&holder, rng);
}

fn new_variant(draft: &mut Draft, rng: &mut Rng) {
    if draft.current.families().count() == 0 {
        base::add_family(draft, rng);
    }
    let discriminant = draft.name(rng);
    let nth = rng.below(draft.current.families().count());
    let f = draft.current.families_mut().nth(nth);
    let f = f.expect("below the count");
    *f = f.clone().variant(&discriminant, &[make::scalar("v", "u8")]);
    let (name, standalone) = (f.name.clone(), f.standalone);
    if !standalone && draft.owner(&name).is_some() {
        draft.raise_for(&name, rng);
    }
}

fn new_key(draft: &mut Draft, rng: &mut Rng) {
    let name = draft.name(rng);
    draft.add(make::key(&name, &draft.now()), rng);
}

/// A root that the last release did not have, with its constant.
fn new_root(draft: &mut Draft, rng: &mut Rng) {
    let before = draft.released.clone();
    base::add_root(draft, rng);
    draft.released = before;
}

fn raised_alone(draft: &mut Draft, rng: &mut Rng) {
    let owned = owned_struct(draft, rng);
    draft.raise_for(&owned, rng);
}

/// Take a drawn item among those that `sort` holds of out of the current.
fn drop_one(draft: &mut Draft, sort: fn(&Item) -> bool, rng: &mut Rng) {
    let places: Vec<usize> = (draft.current.items.iter().enumerate())
        .filter(|(_, item)| sort(item))
        .map(|(at, _)| at)
        .collect();
    if !places.is_empty() {
        draft.current.items.remove(*rng.pick(&places));
    }
}

fn key_gone(draft: &mut Draft, rng: &mut Rng) {
    if draft.current.keys().count() == 0 {
        base::add_key(draft, rng);
    }
    drop_one(draft, |item| matches!(item, Item::Key(_)), rng);
}

fn constant_leaves_api(draft: &mut Draft, rng: &mut Rng) {
    base::add_constant(draft, rng);
    for c in draft.current.constants_mut() {
        c.ora_api = false;
    }
}

fn enum_leaves_api(draft: &mut Draft, rng: &mut Rng) {
    base::add_enum(draft, rng);
    for e in draft.current.enums_mut() {
        e.ora_api = false;
    }
}

fn alias_gone(draft: &mut Draft, rng: &mut Rng) {
    if draft.current.aliases().count() == 0 {
        base::add_alias(draft, rng);
    }
    drop_one(draft, |item| matches!(item, Item::Alias(_)), rng);
}

fn empty_enum_gone(draft: &mut Draft, rng: &mut Rng) {
    let name = draft.name(rng);
    draft.both(make::enumeration(&name, 2), rng);
    drop_one(
        draft,
        |item| matches!(item, Item::Enum(e) if e.values.is_empty()),
        rng,
    );
}

fn unused_resized(draft: &mut Draft, rng: &mut Rng) {
    base::add_enum(draft, rng);
    base::add_bit_field(draft, rng);
    base::add_alias(draft, rng);
    let size = rng.below(9) as u32;
    match rng.below(3) {
        0 => draft.current.enums_mut().for_each(|e| e.size = size),
        1 => draft.current.bit_fields_mut().for_each(|b| b.size = size),
        _ => (draft.current.aliases_mut()).for_each(|a| a.underlying = "u32".into()),
    }
}

fn slot_lost(draft: &mut Draft, rng: &mut Rng) {
    base::add_root(draft, rng);
    draft.current.structs_mut().for_each(|s| s.slot = None);
}

fn entries_gone(draft: &mut Draft, rng: &mut Rng) {
    let (name, entry) = (draft.name(rng), rng.below(5) as u32);
    draft.both(make::version(&name, entry), rng);
    drop_one(draft, |item| matches!(item, Item::Version(_)), rng);
}

/// A constant that is the same as a text and as an integer.
fn constant_retyped(draft: &mut Draft, rng: &mut Rng) {
    let (name, value) = (draft.name(rng), words::integer(rng));
    let (integer, text) = (
        make::integer(&name, value),
        make::text(&name, &value.to_string()),
    );
    let (was, is) = match rng.chance(50) {
        true => (integer, text),
        false => (text, integer),
    };
    rng.insert(&mut draft.released.items, was.into());
    draft.add(is, rng);
}

/// A reference that moves to another name without any layout change.
fn reference_moved(draft: &mut Draft, rng: &mut Rng) {
    let (name, to) = (draft.name(rng), draft.name(rng));
    let kind = rng.word(&["struct_array_ptr", "struct_ptr_array_ptr"]);
    let field = make::field("p", &kind).of("shown").each("nobody");
    draft.both(make::structure(&name).field(field), rng);
    let s = draft.current.the_struct(&name);
    s.fields[0].element = Some(to);
}

fn items_swapped(draft: &mut Draft, rng: &mut Rng) {
    let items = &mut draft.current.items;
    if !items.is_empty() {
        let (one, other) = (rng.below(items.len()), rng.below(items.len()));
        items.swap(one, other);
    }
}

/// The absent width and the absent length type, written out.
fn default_spelled_out(draft: &mut Draft, rng: &mut Rng) {
    base::add_bit_field(draft, rng);
    base::add_family(draft, rng);
    for b in draft.current.bit_fields_mut() {
        for m in &mut b.members {
            m.width = Some(m.width.unwrap_or(1));
        }
    }
    for f in draft.current.families_mut() {
        f.param_len_type.get_or_insert("u8".into());
    }
}

/// A copy from before it said when anything arrived.
fn undated_before(draft: &mut Draft, rng: &mut Rng) {
    base::add_constant(draft, rng);
    base::add_enum(draft, rng);
    base::add_bit_field(draft, rng);
    base::add_key(draft, rng);
    (draft.released.constants_mut()).for_each(|c| c.first_release = None);
    (draft.released.enums_mut()).for_each(|e| e.first_release = None);
    (draft.released.bit_fields_mut()).for_each(|b| b.first_release = None);
    draft
        .released
        .keys_mut()
        .for_each(|k| k.first_release = None);
}

/// A root whose generation is another constant now, which the copy lacks.
fn generation_renamed(draft: &mut Draft, rng: &mut Rng) {
    base::add_root(draft, rng);
    let name = draft.name(rng);
    let mut structs = draft.current.structs_mut();
    let Some(root) = structs.find(|s| s.constant.is_some()) else {
        return;
    };
    root.constant = Some(name.clone());
    drop(structs);
    draft.add(make::integer(&name, 9), rng);
}

/// The date of a constant that no plugin sees.
fn unseen_date_changed(draft: &mut Draft, rng: &mut Rng) {
    let name = draft.name(rng);
    draft.both(make::integer(&name, 1).dated("0.1.0"), rng);
    let date = rng.chance(50).then(|| words::old_date(rng));
    draft.current.the_constant(&name).first_release = date;
}

/// Count, rows, cols and size of kinds that show none of them.
fn unseen_numbers_changed(draft: &mut Draft, rng: &mut Rng) {
    let name = draft.name(rng);
    draft.both(make::structure(&name).field(make::scalar("n", "u8")), rng);
    let s = draft.current.the_struct(&name);
    let field = &mut s.fields[0];
    (field.count, field.rows) = (Some(rng.draw() as u32), Some(rng.draw() as u32));
    (field.cols, field.size) = (Some(rng.draw() as u32), Some(rng.draw() as u32));
}

/// Turn a text constant into a generation, whatever its text was.
fn text_becomes_generation(draft: &mut Draft, rng: &mut Rng) {
    let (name, constant) = (draft.name(rng), draft.name(rng));
    draft.both(make::text(&constant, "magic"), rng);
    draft.both(make::root(&name, "metadata", &constant), rng);
    draft.current.the_constant(&constant).value = Value::Integer(rng.below(9) as i64);
}
