//! The premises of documents 01 and 02 that speak of one record alone.

use std::collections::BTreeSet;

use oracle::layout::Layout;
use oracle::model::{Content, Field, Item};
use oracle::schema::POINTER_KINDS;
use oracle::values;

/// The kinds that are no pointers; with those the sixteen words.
const PLAIN_KINDS: [&str; 8] =
    ["scalar", "enum", "type_alias", "bitfield", "inline_array", "inline_array2d", "padding", "string"];

/// Whether a record may stand in a chain that demand 3 speaks of.
pub fn hold(content: &Content) -> bool {
    !content.unreleased
        && fields(content).iter().all(|f| is_kind(&f.kind))
        && names(content).iter().all(|list| once(list) && list.iter().all(|name| !name.contains(':')))
        && once(&slots(content))
        && once(&layouts(content))
        && reads_as_one(content)
}

/// Whether the sections of a record may be moved as W-214 of document 02 moves them, as its proof has the premise: fields are
/// not moved, a variant's name is in its layout's, and the plugin keys are those of structures and the unstored ones.
pub fn once_each(content: &Content) -> bool {
    let stored = content.structs().flat_map(|s| &s.fields).filter_map(|f| f.key.as_ref());
    let mut lists = sections(content);
    lists.push(stored.chain(content.keys()).map(|k| k.name.as_str()).collect());
    lists.extend(content.enums().map(|e| e.values.iter().map(|v| v.name.as_str()).collect()));
    lists.extend(content.bit_fields().map(|b| b.members.iter().map(|m| m.name.as_str()).collect()));
    lists.push(slots(content));
    lists.iter().all(|list| once(list)) && once(&layouts(content))
}

fn is_kind(word: &str) -> bool {
    PLAIN_KINDS.contains(&word) || POINTER_KINDS.contains(&word)
}

fn once<T: Ord>(list: &[T]) -> bool {
    list.iter().collect::<BTreeSet<_>>().len() == list.len()
}

fn fields(content: &Content) -> Vec<&Field> {
    let structs = content.structs().flat_map(|s| &s.fields);
    let common = content.families().flat_map(|f| &f.common_fields);
    let varied = content.families().flat_map(|f| f.variants.iter().flat_map(|v| &v.fields));
    structs.chain(common).chain(varied).collect()
}

/// The names of each section, of each parent's children, and of all plugin keys together. A family's fields begin with its front.
fn names(content: &Content) -> Vec<Vec<&str>> {
    let keys = content.keys().chain(fields(content).into_iter().filter_map(|f| f.key.as_ref()));
    let mut lists = sections(content);
    lists.push(keys.map(|k| k.name.as_str()).collect());
    content.items.iter().for_each(|item| lists.extend(children(item)));
    lists
}

/// The names of each section. Version entries are free.
fn sections(content: &Content) -> Vec<Vec<&str>> {
    vec![
        content.constants().map(|c| c.name.as_str()).collect(),
        content.aliases().map(|a| a.name.as_str()).collect(),
        content.enums().map(|e| e.name.as_str()).collect(),
        content.bit_fields().map(|b| b.name.as_str()).collect(),
        content.structs().map(|s| s.name.as_str()).collect(),
        content.families().map(|f| f.name.as_str()).collect(),
    ]
}

fn children(item: &Item) -> Vec<Vec<&str>> {
    match item {
        Item::Enum(e) => vec![e.values.iter().map(|v| v.name.as_str()).collect()],
        Item::BitField(b) => vec![b.members.iter().map(|m| m.name.as_str()).collect()],
        Item::Struct(s) => vec![field_names(&s.fields)],
        Item::Family(f) => {
            let front = [f.discriminant_field.as_str(), f.param_len_field.as_str()];
            let discriminants = f.variants.iter().map(|v| v.discriminant.as_str()).collect();
            let mut lists = vec![[&front[..], &field_names(&f.common_fields)].concat(), discriminants];
            lists.extend(f.variants.iter().map(|v| field_names(&v.fields)));
            lists
        }
        _ => Vec::new(),
    }
}

fn field_names(fields: &[Field]) -> Vec<&str> {
    fields.iter().map(|f| f.name.as_str()).collect()
}

fn slots(content: &Content) -> Vec<&str> {
    content.structs().filter_map(|s| s.slot.as_deref()).collect()
}

/// The names of all layouts.
fn layouts(content: &Content) -> Vec<String> {
    let families = content.families().flat_map(|f| {
        let variants = f.variants.iter().map(|v| format!("{}::{}", f.name, v.discriminant));
        std::iter::once(f.name.clone()).chain(variants)
    });
    content.structs().map(|s| s.name.clone()).chain(families).collect()
}

/// Whether both readings give one layout and the same bit widths. A record that only a missing text keeps from being read as
/// current counts by its released reading alone.
fn reads_as_one(content: &Content) -> bool {
    if !complete(content) {
        return true;
    }
    let (schema, copy) = (values::schema(content), values::released(content));
    let (now, then) = (Layout::of_schema(&schema), Layout::of_released(&copy));
    let widths = schema.bitfields.iter().map(|b| b.members.iter().map(|m| m.width()).collect::<Vec<_>>());
    let widths_then = copy.bitfields.iter().map(|b| b.members.iter().map(|m| m.width()).collect::<Vec<_>>());
    now.types == then.types && widths.eq(widths_then)
}

/// Whether every text is there that a current record has to have.
fn complete(content: &Content) -> bool {
    let keys = content.keys().chain(fields(content).into_iter().filter_map(|f| f.key.as_ref()));
    content.release.is_some()
        && content.bit_fields().all(|b| b.first_release.is_some())
        && keys.into_iter().all(|k| k.first_release.is_some())
}

#[cfg(test)]
mod tests {
    use oracle::generate::make::{
        content, enumeration, family, field, integer, key, padding, scalar, slotted, structure, version,
    };
    use oracle::model::{Content, Item};

    use super::{hold, once_each};

    fn holds_with(items: Vec<Item>) -> bool {
        hold(&Content { items, ..content("0.9.0") })
    }

    #[test]
    fn a_plain_record_meets_them() {
        let tile = structure("tile").field(scalar("n", "u16")).field(padding("gap", 1));
        assert!(holds_with(vec![tile.into(), family("f").variant("V", &[]).into()]));
        assert!(!hold(&content("0.9.0").unreleased()));
    }

    #[test]
    fn each_name_stands_once_in_its_list() {
        assert!(!holds_with(vec![integer("c", 1).into(), integer("c", 2).into()]));
        assert!(!holds_with(vec![structure("x").into(), family("x").into()]));
        assert!(!holds_with(vec![slotted("a", "info").into(), slotted("b", "info").into()]));
        let keyed = structure("s").field(scalar("n", "u8").keyed("k", "0.8.0"));
        assert!(!holds_with(vec![keyed.into(), key("k", "0.8.0").into()]));
        assert!(!holds_with(vec![family("f").common(scalar("d", "u8")).into()]));
    }

    /// W-214 asks nothing of fields, kinds, colons and the keys of families.
    #[test]
    fn what_is_moved_stands_once() {
        let holds = |items: Vec<Item>| once_each(&Content { items, ..content("0.9.0") });
        let strange = structure("a:b").field(field("n", "padding u8")).field(scalar("n", "u8"));
        let keyed = |name: &str| scalar(name, "u8").keyed("k", "0.8.0");
        assert!(holds(vec![strange.into(), family("f").common(keyed("c")).into(), key("k", "0.8.0").into()]));
        assert!(holds(vec![version("s", 1).into(), version("s", 1).into()]));
        assert!(!holds(vec![structure("s").field(keyed("n")).into(), key("k", "0.8.0").into()]));
        assert!(!holds(vec![integer("c", 1).into(), integer("c", 2).into()]));
        assert!(!holds(vec![enumeration("e", 1).value("v", 1).value("v", 2).into()]));
        assert!(!holds(vec![slotted("a", "other").into(), slotted("b", "other").into()]));
        assert!(!holds(vec![family("f").variant("V", &[]).variant("V", &[]).into()]));
        assert!(!holds(vec![family("a").variant(":b", &[]).into(), family("a:").variant("b", &[]).into()]));
    }

    #[test]
    fn kinds_are_among_the_sixteen_and_names_have_no_colon() {
        assert!(!holds_with(vec![structure("s").field(field("n", "padding u8")).into()]));
        assert!(!holds_with(vec![structure("a:b").into()]));
    }
}
