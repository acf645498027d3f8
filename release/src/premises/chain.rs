//! The premises that speak of the records of a chain together, for what is proved of generation numbers.

use std::collections::{BTreeMap, BTreeSet, HashMap, HashSet};

use super::names::names;
use super::{record, Outside, CONSTANT, DESCRIBED, INTEGER, OWNED, SLOT};
use crate::record::commands::{Said, CONSTANT as CONSTANTS, FAMILY, STRUCT};
use crate::record::owners::{owners, SLOTS};
use crate::text::written;

/// A record of a chain: how a message calls it, and its commands.
pub struct Link {
    pub label: String,
    pub commands: Vec<Said>,
}

/// Where a chain is outside the premises, the first record and the accepted ones in their order; a lone record is taken as
/// a later one too.
pub fn outside(links: &[Link]) -> Vec<Outside> {
    let mut found = Vec::new();
    for (index, link) in links.iter().enumerate() {
        let own = record::outside(&link.commands).into_iter();
        found.extend(own.map(|(premise, what)| Outside { premise, record: index, what }));
    }
    let tables = links.iter().map(|link| Tables::of(&link.commands)).collect();
    let chain = Chain { links, tables, first_later: usize::from(links.len() > 1) };
    chain.slots(&mut found);
    chain.constants(&mut found);
    chain.integers(&mut found);
    chain.owners(&mut found);
    chain.described(&mut found);
    found
        .sort_by_key(|outside| super::PREMISES.iter().position(|premise| premise.key == outside.premise.key));
    found
}

struct Chain<'a> {
    links: &'a [Link],
    tables: Vec<Tables<'a>>,
    /// The index of the first record that counts as a later one.
    first_later: usize,
}

/// A structure that fills one of the three slots.
struct Root<'a> {
    name: &'a [u8],
    slot: &'a [u8],
    constant: Option<&'a [u8]>,
}

/// What is looked up in a record.
struct Tables<'a> {
    roots: Vec<Root<'a>>,
    /// The names of the roots.
    rooted: HashSet<&'a [u8]>,
    /// The first constant of each name, as the check of the generations takes it.
    constants: HashMap<&'a [u8], &'a Said>,
    /// The standalone families, which another rule than a generation's holds to their bytes.
    standalone: HashSet<&'a [u8]>,
    owners: HashMap<&'a [u8], &'a [u8]>,
}

impl<'a> Tables<'a> {
    fn of(commands: &'a [Said]) -> Tables<'a> {
        let with = |byte: u8| commands.iter().filter(move |said| said.command.byte == byte);
        let root = |said: &'a Said| {
            let slot = said.text(1).filter(|slot| SLOTS.contains(slot))?;
            Some(Root { name: said.text(0).unwrap_or_default(), slot, constant: said.text(2) })
        };
        let roots: Vec<Root> = with(STRUCT).filter_map(root).collect();
        let mut constants = HashMap::new();
        for said in with(CONSTANTS) {
            constants.entry(said.text(0).unwrap_or_default()).or_insert(said);
        }
        Tables {
            rooted: roots.iter().map(|root| root.name).collect(),
            roots,
            constants,
            standalone: with(FAMILY).filter(|said| said.flag(5)).filter_map(|said| said.text(0)).collect(),
            owners: owners(commands),
        }
    }
}

impl<'a> Chain<'a> {
    fn all(&self) -> impl Iterator<Item = (usize, &'a str, &Tables<'a>)> {
        let links: &'a [Link] = self.links;
        links.iter().zip(&self.tables).enumerate().map(|(at, (link, tables))| (at, &link.label[..], tables))
    }

    fn later(&self) -> impl Iterator<Item = (usize, &'a str, &Tables<'a>)> {
        self.all().skip(self.first_later)
    }

    /// A structure that fills a slot in a record and none in a later one.
    fn slots(&self, found: &mut Vec<Outside>) {
        let mut told = HashSet::new();
        for (index, label, tables) in self.all() {
            for root in &tables.roots {
                let mut after = self.all().skip(index + 1);
                let lost = after.find(|(_, _, later)| !later.rooted.contains(root.name));
                if let Some((at, later, _)) = lost.filter(|_| told.insert(root.name)) {
                    let (name, slot) = (written(root.name), written(root.slot));
                    let what = format!(
                        "struct {name} fills the slot {slot} in {label} and none of the three in {later}"
                    );
                    found.push(Outside { premise: &SLOT, record: at, what });
                }
            }
        }
    }

    /// A structure that names another constant in a later record, or none.
    fn constants(&self, found: &mut Vec<Outside>) {
        let mut named: HashMap<&[u8], (&str, &[u8])> = HashMap::new();
        let mut told = HashSet::new();
        for (index, label, tables) in self.later() {
            for root in &tables.roots {
                let name = written(root.name);
                let Some(constant) = root.constant else {
                    let what = format!("struct {name} names no constant in {label}");
                    found.push(Outside { premise: &CONSTANT, record: index, what });
                    continue;
                };
                let (before, other) = *named.entry(root.name).or_insert((label, constant));
                if other != constant && told.insert(root.name) {
                    let (other, constant) = (written(other), written(constant));
                    let what = format!(
                        "struct {name} names the constant {other} in {before} and {constant} in {label}"
                    );
                    found.push(Outside { premise: &CONSTANT, record: index, what });
                }
            }
        }
    }

    /// A constant that a structure names and that some record does not hold as an integer.
    fn integers(&self, found: &mut Vec<Outside>) {
        let mut pairs: BTreeMap<&[u8], &[u8]> = BTreeMap::new();
        for root in self.later().flat_map(|(_, _, tables)| &tables.roots) {
            if let Some(constant) = root.constant {
                pairs.entry(constant).or_insert(root.name);
            }
        }
        for (constant, root) in pairs {
            for (index, label, tables) in self.all() {
                let state = match tables.constants.get(constant) {
                    None => "is not",
                    Some(said) if said.flag(1) => "is a text",
                    Some(_) => continue,
                };
                let (constant, root) = (written(constant), written(root));
                let what = format!("constant {constant}, which struct {root} names, {state} in {label}");
                found.push(Outside { premise: &INTEGER, record: index, what });
            }
        }
    }

    /// A type of the first record that another structure owns in a later one, or nobody.
    fn owners(&self, found: &mut Vec<Outside>) {
        let (Some(first), Some((_, label, tables))) = (self.links.first(), self.all().next()) else { return };
        let layouts = names(&first.commands).layouts.names;
        let owned: BTreeSet<&[u8]> = layouts.iter().map(|name| before_colons(name)).collect();
        for name in owned {
            let before = tables.owners.get(name).map(|root| (label, *root));
            let later = self.later().filter(|(_, _, tables)| !tables.standalone.contains(name));
            found.extend(other_owner(name, before, later));
        }
    }

    /// A type of a later record that the first does not describe.
    fn described(&self, found: &mut Vec<Outside>) {
        let Some(first) = self.links.first() else { return };
        let mut met: HashSet<Vec<u8>> = names(&first.commands).layouts.names.into_iter().collect();
        for (index, link) in self.links.iter().enumerate().skip(self.first_later) {
            for name in names(&link.commands).layouts.names {
                if !met.contains(&name) {
                    let (shown, label) = (written(&name), &first.label);
                    let what = format!("{shown} is not described in {label}");
                    found.push(Outside { premise: &DESCRIBED, record: index, what });
                    met.insert(name);
                }
            }
        }
    }
}

/// The first of these records in which a name has another owner than before, or none.
fn other_owner<'a, 'b: 'a>(
    name: &[u8],
    mut before: Option<(&'b str, &'a [u8])>,
    later: impl Iterator<Item = (usize, &'b str, &'a Tables<'b>)>,
) -> Option<Outside> {
    let shown = written(name);
    for (record, label, tables) in later {
        let what = match (before, tables.owners.get(name).copied()) {
            (_, None) => format!("nobody owns {shown} in {label}"),
            (Some((earlier, was)), Some(is)) if was != is => {
                let (was, is) = (written(was), written(is));
                format!("{shown} is owned by {was} in {earlier} and by {is} in {label}")
            }
            (_, root) => {
                before = before.or(root.map(|root| (label, root)));
                continue;
            }
        };
        return Some(Outside { premise: &OWNED, record, what });
    }
    None
}

/// A name before its first "::".
fn before_colons(name: &[u8]) -> &[u8] {
    let joint = name.windows(2).position(|two| two == b"::");
    joint.map_or(name, |at| &name[..at])
}
