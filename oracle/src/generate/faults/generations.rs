//! Faults of the generations.

use super::Fault;
use crate::generate::draft::Draft;
use crate::generate::{base, make, words};
use crate::model::{Constant, Item, Struct, Value};
use crate::rng::Rng;

pub fn forms(verdict: u32) -> &'static [Fault] {
    match verdict {
        40 => &[
            new_struct_uncovered,
            new_family_uncovered,
            other_slot_uncovered,
            changed_uncovered,
        ],
        41 => &[no_constant_named, constant_undeclared, constant_unfit],
        42 => &[was_no_generation],
        43 => &[
            root_grew,
            child_grew,
            family_grew,
            padding_grew,
            last_generation,
        ],
        44 => &[entry_missing, entry_of_another],
        45 => &[leapt],
        _ => &[fell],
    }
}

fn new_struct_uncovered(draft: &mut Draft, rng: &mut Rng) {
    let mut s = make::structure(&draft.name(rng));
    s.fields = base::fields(draft, 1, rng);
    for field in &mut s.fields {
        field.key = None;
    }
    draft.add(s, rng);
}

fn new_family_uncovered(draft: &mut Draft, rng: &mut Rng) {
    let name = draft.name(rng);
    draft.add(make::family(&name), rng);
}

/// A structure with a slot text that is no root, though a root refers to it.
fn other_slot_uncovered(draft: &mut Draft, rng: &mut Rng) {
    let root = root(draft, rng);
    let (name, field) = (draft.name(rng), draft.name(rng));
    draft.add(make::slotted(&name, &words::other_slot(rng)), rng);
    draft.append(&root, make::pointer(&field, &name));
}

fn changed_uncovered(draft: &mut Draft, rng: &mut Rng) {
    let (name, field) = (draft.name(rng), draft.name(rng));
    draft.both(make::structure(&name), rng);
    draft.append(&name, make::scalar(&field, "u8"));
}

/// The name of a root of both contents whose constant is in both; there is one
/// afterwards.
fn root(draft: &mut Draft, rng: &mut Rng) -> String {
    base::add_root(draft, rng);
    let roots = common_roots(draft);
    if !roots.is_empty() {
        return rng.pick(&roots).clone();
    }
    let constant = draft.name(rng);
    draft.both(make::integer(&constant, 3), rng);
    slotted_root(draft, Some(&constant), rng)
}

fn common_roots(draft: &Draft) -> Vec<String> {
    let fills = |s: &&Struct| (s.slot.as_deref()).is_some_and(|slot| words::SLOTS.contains(&slot));
    let common = |s: &&Struct| {
        let constant = |c: &Constant| Some(&c.name) == s.constant.as_ref();
        draft.released.structs().any(|was| was.name == s.name)
            && draft.released.constants().any(constant)
            && draft.current.constants().any(constant)
    };
    let roots = draft.current.structs().filter(fills).filter(common);
    roots.map(|s| s.name.clone()).collect()
}

/// Give a slot to a new structure of both contents, taking it from any other.
fn slotted_root(draft: &mut Draft, constant: Option<&str>, rng: &mut Rng) -> String {
    let slot = rng.word(&words::SLOTS);
    for content in [&mut draft.released, &mut draft.current] {
        for s in content.structs_mut() {
            s.slot.take_if(|taken| *taken == slot);
        }
    }
    let mut s = make::slotted(&draft.name(rng), &slot);
    s.constant = constant.map(str::to_string);
    let name = s.name.clone();
    draft.both(s, rng);
    name
}

fn no_constant_named(draft: &mut Draft, rng: &mut Rng) {
    slotted_root(draft, None, rng);
}

fn constant_undeclared(draft: &mut Draft, rng: &mut Rng) {
    let name = draft.name(rng);
    slotted_root(draft, Some(&name), rng);
}

fn constant_unfit(draft: &mut Draft, rng: &mut Rng) {
    let name = draft.name(rng);
    let constant = match rng.below(4) {
        0 => make::integer(&name, -1),
        1 => make::integer(&name, 4_294_967_296),
        2 => make::integer(&name, i64::MIN),
        _ => make::text(&name, "3"),
    };
    draft.both(constant, rng);
    slotted_root(draft, Some(&name), rng);
}

/// Set the constant of a root that is in both contents.
fn set_generation(draft: &mut Draft, root: &str, was: i64, is: i64) {
    let constant = draft.current.the_struct(root).constant.clone();
    let constant = constant.expect("a root names its constant");
    draft.released.the_constant(&constant).value = Value::Integer(was);
    draft.current.the_constant(&constant).value = Value::Integer(is);
}

fn was_no_generation(draft: &mut Draft, rng: &mut Rng) {
    let root = root(draft, rng);
    let was = *rng.pick(&[-1, 4_294_967_296, i64::MIN, i64::MAX, -4_294_967_295]);
    set_generation(draft, &root, was, *rng.pick(&[0, 3, 4_294_967_295]));
}

fn root_grew(draft: &mut Draft, rng: &mut Rng) {
    let (root, field) = (root(draft, rng), draft.name(rng));
    draft.append(&root, make::scalar(&field, "u8"));
}

fn child_grew(draft: &mut Draft, rng: &mut Rng) {
    let root = root(draft, rng);
    let (child, pointer, field) = (draft.name(rng), draft.name(rng), draft.name(rng));
    if rng.chance(50) {
        draft.both(make::structure(&child), rng);
    } else {
        draft.add(make::structure(&child), rng);
    }
    let pointer = base::reference(&pointer, &child, rng);
    draft.append(&root, pointer.clone());
    draft.released.the_struct(&root).fields.push(pointer);
    draft.append(&child, make::scalar(&field, "u8"));
}

/// A family that a root refers to gains a variant, or comes new.
fn family_grew(draft: &mut Draft, rng: &mut Rng) {
    let root = root(draft, rng);
    let (name, field) = (draft.name(rng), draft.name(rng));
    let f = make::family(&name);
    if rng.chance(50) {
        rng.insert(&mut draft.released.items, f.clone().into());
    }
    draft.add(f.variant("V", &[make::scalar("v", "u8")]), rng);
    draft.append(&root, make::field(&field, "tagged_fam_ptr").of(&name));
}

fn padding_grew(draft: &mut Draft, rng: &mut Rng) {
    let (root, field) = (root(draft, rng), draft.name(rng));
    draft.append(&root, make::padding(&field, rng.below(3) as u32));
}

/// 43 at generation 4,294,967,295, the one text that is not the Rust's.
fn last_generation(draft: &mut Draft, rng: &mut Rng) {
    let (root, field) = (root(draft, rng), draft.name(rng));
    set_generation(draft, &root, 4_294_967_295, 4_294_967_295);
    draft.append(&root, make::scalar(&field, "u8"));
}

fn drop_entries(draft: &mut Draft, root: &str) {
    draft.drop_items(|item| matches!(item, Item::Version(v) if v.struct_name == root));
}

fn entry_missing(draft: &mut Draft, rng: &mut Rng) {
    let root = root(draft, rng);
    drop_entries(draft, &root);
    let was = *rng.pick(&[0, 3, 4_294_967_294]);
    set_generation(draft, &root, was, was + 1);
    if rng.chance(50) {
        let field = draft.name(rng);
        draft.append(&root, make::scalar(&field, "u8"));
    }
}

fn entry_of_another(draft: &mut Draft, rng: &mut Rng) {
    let (root, other) = (root(draft, rng), draft.name(rng));
    drop_entries(draft, &root);
    set_generation(draft, &root, 3, 4);
    let entry = match rng.chance(50) {
        true => make::version(&root, *rng.pick(&[3, 5])),
        false => make::version(&other, 4),
    };
    draft.add(entry, rng);
}

fn leapt(draft: &mut Draft, rng: &mut Rng) {
    let root = root(draft, rng);
    let (was, is) = *rng.pick(&[(3, 5), (0, 4_294_967_295), (0, 2), (1, 9)]);
    set_generation(draft, &root, was, is);
    draft.add(make::version(&root, is as u32), rng);
}

fn fell(draft: &mut Draft, rng: &mut Rng) {
    let root = root(draft, rng);
    let (was, is) = *rng.pick(&[(3, 2), (4_294_967_295, 0), (1, 0), (9, 1)]);
    set_generation(draft, &root, was, is);
    drop_entries(draft, &root);
    if rng.chance(30) {
        let field = draft.name(rng);
        draft.append(&root, make::scalar(&field, "u8"));
    }
}
