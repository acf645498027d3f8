//! Demand 3's conclusion, asked of the Rust's own structures: the first record of a chain and the accepted ones after it.

use oracle::layout::Layout;
use oracle::model::Content;
use oracle::released::Released;
use oracle::schema::{ConstantValue, Schema, is_slot};
use oracle::values;

/// How much of the first record was looked for in the last, and what was not found.
#[derive(Default)]
pub struct Kept {
    pub fields: usize,
    pub values: usize,
    pub members: usize,
    /// Structures whose generation number is the same in both, with a type under it.
    pub generations: usize,
    /// Types under such a number.
    pub types: usize,
    pub lost: Vec<String>,
}

impl Kept {
    fn look(&mut self, found: bool, what: impl FnOnce() -> String) {
        if !found {
            self.lost.push(what());
        }
    }
}

/// What the last of the later records keeps of the first; there is a later one.
pub fn kept(first: &Content, later: &[Content]) -> Kept {
    let copy = values::released(first);
    let later: Vec<Schema> = later.iter().map(values::schema).collect();
    let last = later.last().expect("a record was accepted");
    let (then, now) = (Layout::of_released(&copy), Layout::of_schema(last));
    let mut kept = Kept::default();
    fields(&mut kept, &then, &now);
    enum_values(&mut kept, &copy, last);
    bit_members(&mut kept, &copy, last);
    generations(&mut kept, &copy, &later, &then, &now);
    kept
}

/// Each non-padding field, under its own and its layout's name, with its offset, size and description.
fn fields(kept: &mut Kept, then: &Layout, now: &Layout) {
    for (name, was) in &then.types {
        for old in was.fields.iter().filter(|f| !f.padding) {
            let found = now.types.get(name).is_some_and(|is| is.fields.contains(old));
            kept.look(found, || format!("{name}.{}", old.name));
            kept.fields += 1;
        }
    }
}

fn enum_values(kept: &mut Kept, first: &Released, last: &Schema) {
    for e in &first.enums {
        for old in &e.variants {
            let found = (last.enums.iter().filter(|is| is.name == e.name))
                .any(|is| is.variants.iter().any(|v| v.name == old.name && v.value == old.value));
            kept.look(found, || format!("{}::{}", e.name, old.name));
            kept.values += 1;
        }
    }
}

fn bit_members(kept: &mut Kept, first: &Released, last: &Schema) {
    for b in &first.bitfields {
        for old in &b.members {
            let same = |m: &oracle::schema::BitfieldMember| {
                m.name == old.name && m.bit == old.bit && m.width() == old.width()
            };
            let found =
                last.bitfields.iter().filter(|is| is.name == b.name).any(|is| is.members.iter().any(same));
            kept.look(found, || format!("{}::{}", b.name, old.name));
            kept.members += 1;
        }
    }
}

/// Where a structure's number is the same in the first and the last, every type under it has the same fields in order.
fn generations(kept: &mut Kept, first: &Released, later: &[Schema], then: &Layout, now: &Layout) {
    let owners: Vec<_> = later.iter().map(Schema::ownership).collect();
    for (root, constant) in carriers(later) {
        let numbers: Option<Vec<i64>> = later.iter().map(|record| integer(record, constant)).collect();
        let (Some(numbers), Some(ConstantValue::Integer(was))) = (numbers, first.constant(constant)) else {
            continue;
        };
        if numbers.last() != Some(was) {
            continue;
        }
        let under = |name: &str| {
            let owned = name.split("::").next().unwrap_or(name);
            owners.iter().all(|owners| owners.get(owned) == Some(&root))
        };
        let types: Vec<&String> = then.types.keys().filter(|name| under(name)).collect();
        for name in &types {
            kept.look(now.types.get(*name) == then.types.get(*name), || format!("{name} under {root}"));
        }
        kept.generations += usize::from(!types.is_empty());
        kept.types += types.len();
    }
}

/// The structures that fill one of the three slots and name the same constant in every later record, with that constant.
fn carriers(later: &[Schema]) -> Vec<(&str, &str)> {
    let roots = |record: &Schema, root: &str, constant: &str| {
        record.structs.iter().any(|s| {
            let in_slot = s.generation_slot.as_deref().is_some_and(is_slot);
            s.name == root && in_slot && s.version_constant.as_deref() == Some(constant)
        })
    };
    let named =
        later[0].structs.iter().filter_map(|s| Some((s.name.as_str(), s.version_constant.as_deref()?)));
    named.filter(|(root, constant)| later.iter().all(|record| roots(record, root, constant))).collect()
}

fn integer(record: &Schema, constant: &str) -> Option<i64> {
    match record.constants.iter().find(|c| c.name == constant)?.value {
        ConstantValue::Integer(number) => Some(number),
        ConstantValue::Text(_) => None,
    }
}

#[cfg(test)]
mod tests {
    use oracle::generate::make::{
        bit_field, content, enumeration, integer, padding, pointer, root, scalar, structure,
    };
    use oracle::model::{Content, Field};

    use super::kept;

    /// A root with its generation, a structure under it with these fields, a value and a member.
    fn record(generation: i64, fields: &[Field]) -> Content {
        let mut tile = structure("tile");
        tile.fields = fields.to_vec();
        content("0.9.0")
            .with(integer("GEN", generation))
            .with(root("scan", "metadata", "GEN").field(pointer("first", "tile")))
            .with(tile)
            .with(enumeration("e", 1).value("v", 7))
            .with(bit_field("b", 1, "0.8.0").member("m", 3, None))
    }

    fn plain() -> [Field; 2] {
        [scalar("n", "u16"), padding("gap", 2)]
    }

    #[test]
    fn the_same_record_keeps_all() {
        let kept = kept(&record(3, &plain()), &[record(3, &plain())]);
        assert_eq!((kept.fields, kept.values, kept.members), (2, 1, 1));
        assert_eq!((kept.generations, kept.types), (1, 2));
        assert!(kept.lost.is_empty());
    }

    #[test]
    fn a_moved_field_is_lost() {
        let moved = [padding("gap", 2), scalar("n", "u16")];
        assert_eq!(kept(&record(3, &plain()), &[record(4, &moved)]).lost, ["tile.n"]);
    }

    #[test]
    fn padding_counts_under_an_equal_generation_alone() {
        let grown = [scalar("n", "u16"), padding("gap", 3)];
        assert_eq!(kept(&record(3, &plain()), &[record(3, &grown)]).lost, ["tile under scan"]);
        assert!(kept(&record(3, &plain()), &[record(4, &grown)]).lost.is_empty());
    }

    #[test]
    fn values_and_members_are_looked_for() {
        let mut last = record(3, &plain());
        last.the_enum("e").values[0].value = 8;
        last.the_bit_field("b").members[0].bit = 4;
        assert_eq!(kept(&record(3, &plain()), &[last]).lost, ["e::v", "b::m"]);
    }
}
