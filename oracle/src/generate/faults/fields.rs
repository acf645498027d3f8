//! Faults of fields and of standalone families.

use super::Fault;
use crate::generate::draft::Draft;
use crate::generate::{base, make};
use crate::model::{Family, Field, Item, Struct};
use crate::rng::Rng;

pub fn forms(verdict: u32) -> &'static [Fault] {
    match verdict {
        33 => &[struct_gone, empty_struct_gone, family_gone, variant_gone],
        34 => &[field_gone, common_gone, variant_field_gone, front_renamed],
        35 => &[pushed_along, pulled_back, reordered],
        36 => &[resized, named_type_resized, length_resized],
        37 => &[redescribed, discriminant_redescribed],
        38 => &[standing_changed],
        _ => &[
            common_gained,
            variant_gained,
            padding_changed,
            padding_gained,
        ],
    }
}

/// A structure in both contents with these fields, the current one to be
/// touched.
fn structure<'d>(draft: &'d mut Draft, fields: &[Field], rng: &mut Rng) -> &'d mut Struct {
    let mut s = make::structure(&draft.name(rng));
    s.fields = fields.to_vec();
    let name = s.name.clone();
    draft.both(s, rng);
    draft.current.the_struct(&name)
}

/// A field of any kind but padding, which the check holds to nothing.
fn held_field(draft: &Draft, name: &str, rng: &mut Rng) -> Field {
    loop {
        let field = base::any_field(&draft.current, name, rng);
        if field.kind != "padding" {
            return field;
        }
    }
}

/// A family in both contents with a common field and a variant of one field.
fn family<'d>(draft: &'d mut Draft, standalone: bool, rng: &mut Rng) -> &'d mut Family {
    let mut f = make::family(&draft.name(rng));
    f.standalone = standalone;
    let common = held_field(draft, "c", rng);
    let own = held_field(draft, "v", rng);
    let f = f.common(common).variant("V", &[own]);
    let name = f.name.clone();
    draft.both(f, rng);
    draft.current.the_family(&name)
}

fn struct_gone(draft: &mut Draft, rng: &mut Rng) {
    let fields = base::fields(draft, 2, rng);
    let name = structure(draft, &fields, rng).name.clone();
    draft.drop_items(|item| matches!(item, Item::Struct(s) if s.name == name));
}

fn empty_struct_gone(draft: &mut Draft, rng: &mut Rng) {
    let name = structure(draft, &[], rng).name.clone();
    draft.drop_items(|item| matches!(item, Item::Struct(s) if s.name == name));
}

fn family_gone(draft: &mut Draft, rng: &mut Rng) {
    let standalone = rng.chance(50);
    let name = family(draft, standalone, rng).name.clone();
    draft.drop_items(|item| matches!(item, Item::Family(f) if f.name == name));
}

fn variant_gone(draft: &mut Draft, rng: &mut Rng) {
    let standalone = rng.chance(50);
    family(draft, standalone, rng).variants.clear();
}

fn field_gone(draft: &mut Draft, rng: &mut Rng) {
    let fields = [make::scalar("n", "u16"), make::scalar("m", "u8")];
    let at = rng.below(2);
    structure(draft, &fields, rng).fields.remove(at);
}

fn common_gone(draft: &mut Draft, rng: &mut Rng) {
    let f = family(draft, false, rng);
    f.common_fields[0].name = "renamed".into();
}

fn variant_field_gone(draft: &mut Draft, rng: &mut Rng) {
    let standalone = rng.chance(50);
    family(draft, standalone, rng).variants[0].fields.clear();
}

fn front_renamed(draft: &mut Draft, rng: &mut Rng) {
    let name = draft.name(rng);
    let first = rng.chance(50);
    let f = family(draft, false, rng);
    match first {
        true => f.discriminant_field = name,
        false => f.param_len_field = name,
    }
}

fn pushed_along(draft: &mut Draft, rng: &mut Rng) {
    let name = draft.name(rng);
    let new = match rng.chance(50) {
        true => make::scalar(&name, "u8"),
        false => make::padding(&name, 2),
    };
    let fields = [make::scalar("m", "u8"), make::scalar("n", "u16")];
    let at = rng.below(2);
    structure(draft, &fields, rng).fields.insert(at, new);
}

fn pulled_back(draft: &mut Draft, rng: &mut Rng) {
    let fields = [make::padding("gap", 3), make::scalar("n", "u16")];
    let left = rng.below(3) as u32;
    structure(draft, &fields, rng).fields[0].size = Some(left);
}

fn reordered(draft: &mut Draft, rng: &mut Rng) {
    let fields = [make::scalar("m", "u16"), make::scalar("n", "u16")];
    structure(draft, &fields, rng).fields.reverse();
}

fn resized(draft: &mut Draft, rng: &mut Rng) {
    let changes = [
        (make::scalar("n", "u8"), make::scalar("n", "u16")),
        (make::scalar("n", "u8"), make::scalar("n", "u64")),
        (make::field("n", "scalar"), make::scalar("n", "u32")),
        (make::array("n", "u16", 3), make::array("n", "u16", 4)),
        (
            make::array2d("n", "u8", 2, 3),
            make::array2d("n", "u8", 3, 3),
        ),
        (make::pointer("n", "a"), make::scalar("n", "u8")),
        (make::scalar("n", "u8"), make::padding("n", 4)),
        (make::field("n", "enum"), make::field("n", "type_alias")),
        (make::field("n", "string"), make::scalar("n", "u8")),
    ];
    let (was, is) = rng.pick(&changes).clone();
    structure(draft, &[was], rng).fields[0] = is;
}

/// The field is as it was, and the type it names has another size.
fn named_type_resized(draft: &mut Draft, rng: &mut Rng) {
    let name = draft.name(rng);
    let (kind, was, is): (&str, Item, Item) = match rng.below(3) {
        0 => (
            "enum",
            make::enumeration(&name, 1).into(),
            make::enumeration(&name, 2).into(),
        ),
        1 => (
            "type_alias",
            make::alias(&name, "u8").into(),
            make::alias(&name, "u32").into(),
        ),
        _ => {
            let now = draft.now();
            (
                "bitfield",
                make::bit_field(&name, 1, &now).into(),
                make::bit_field(&name, 2, &now).into(),
            )
        }
    };
    rng.insert(&mut draft.released.items, was);
    draft.add(is, rng);
    structure(draft, &[make::field("n", kind).of(&name)], rng);
}

fn length_resized(draft: &mut Draft, rng: &mut Rng) {
    let standalone = rng.chance(50);
    family(draft, standalone, rng).param_len_type = Some(rng.word(&["u16", "u32", "", "u64"]));
}

fn redescribed(draft: &mut Draft, rng: &mut Rng) {
    let changes = [
        (make::scalar("n", "u8"), make::scalar("n", "char")),
        (make::field("n", "scalar"), make::scalar("n", "u8")),
        (
            make::field("n", "scalar"),
            make::field("n", "scalar").each("u8"),
        ),
        (make::pointer("n", "a"), make::pointer("n", "b")),
        (
            make::pointer("n", "a"),
            make::field("n", "opaque_ptr").of("a"),
        ),
        (make::array("n", "u16", 2), make::array("n", "u8", 4)),
        (make::array("n", "u64", 2), make::array("n", "u64", 3)),
        (
            make::array2d("n", "u8", 2, 3),
            make::array2d("n", "u8", 3, 2),
        ),
        (make::scalar("n", "u16"), make::padding("n", 2)),
        (make::scalar("n", ""), make::scalar("n", "u64")),
        (make::field("n", "string"), make::field("n", "strin")),
    ];
    let (was, is) = rng.pick(&changes).clone();
    structure(draft, &[was], rng).fields[0] = is;
}

fn discriminant_redescribed(draft: &mut Draft, rng: &mut Rng) {
    let name = draft.name(rng);
    family(draft, false, rng).discriminant_type = name;
}

fn standing_changed(draft: &mut Draft, rng: &mut Rng) {
    let standalone = rng.chance(50);
    family(draft, standalone, rng).standalone = !standalone;
}

fn common_gained(draft: &mut Draft, rng: &mut Rng) {
    let name = draft.name(rng);
    let f = family(draft, true, rng);
    f.common_fields.push(make::scalar(&name, "u8"));
}

fn variant_gained(draft: &mut Draft, rng: &mut Rng) {
    let name = draft.name(rng);
    let f = family(draft, true, rng);
    f.variants[0].fields.push(make::scalar(&name, "u8"));
}

fn padding_changed(draft: &mut Draft, rng: &mut Rng) {
    let name = draft.name(rng);
    let f = make::family(&name).standalone();
    let f = f.common(make::padding("gap", 3)).variant("V", &[]);
    rng.insert(&mut draft.released.items, f.clone().into());
    let mut grown = f;
    grown.common_fields[0].size = Some(4);
    draft.add(grown, rng);
}

fn padding_gained(draft: &mut Draft, rng: &mut Rng) {
    let name = draft.name(rng);
    let f = family(draft, true, rng);
    f.variants[0].fields.push(make::padding(&name, 1));
}
