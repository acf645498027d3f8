//! What to do about a verdict: the lines of the text form to change where the cure is mechanical, and else the page's words.

use super::page;
use crate::record::commands::{
    by_word, Said, Value, BIT_FIELD, CONSTANT, ENUM, FAMILY, FIELD, FIELD_KEY, HEAD, MEMBER, STRUCT,
    UNSTORED_KEY, VALUE, VARIANT, VERSION,
};
use crate::text::{line, written};

/// A change of the current record's text.
#[derive(Clone, Debug, PartialEq, Eq)]
pub enum Edit {
    /// This line in place of that one, which stands in another where `into` names one; `told` says it in short.
    Set { old: String, new: String, into: Option<String>, told: String },
    /// One more line at the end of the record, or among the parts of a line: after one of them, or as the first.
    Add { line: String, into: Option<String>, after: Option<String> },
}

/// What to do about a verdict.
#[derive(Clone, Debug, PartialEq, Eq)]
pub struct Hint {
    /// Empty where the cure is not mechanical.
    pub edits: Vec<Edit>,
    pub words: String,
}

/// The hint of a verdict on two records, whose commands these are; none for any other answer.
pub fn hint(number: u32, message: &str, current: &[Said], released: &[Said]) -> Option<Hint> {
    let page = page(number).filter(|_| (11..=46).contains(&number))?;
    let pair = Pair { message, current, released };
    let edits = pair.edits(number).unwrap_or_default();
    let told: Vec<String> = edits.iter().map(Edit::told).collect();
    let words = if edits.is_empty() { page.cure.to_string() } else { told.join(" and ") };
    Some(Hint { edits, words })
}

impl Edit {
    fn told(&self) -> String {
        match self {
            Edit::Set { told, .. } => told.clone(),
            Edit::Add { line, into: None, .. } => format!("add: {line}"),
            Edit::Add { line, into: Some(parent), after: None } => format!("add to {parent}: {line}"),
            Edit::Add { line, into: Some(parent), after: Some(after) } => {
                format!("add to {parent}, after {after}: {line}")
            }
        }
    }
}

struct Pair<'a> {
    message: &'a str,
    current: &'a [Said],
    released: &'a [Said],
}

/// A command as the messages call it, with the one that it is a part of, if any, and where that stands.
struct Item<'a> {
    label: String,
    parent: Option<&'a Said>,
    into: Option<String>,
    said: &'a Said,
}

impl<'a> Pair<'a> {
    /// The mechanical cure of a verdict, if it has one.
    fn edits(&self, number: u32) -> Option<Vec<Edit>> {
        match number {
            12 | 15 => self.release(),
            16 | 17 => {
                self.dated(" is not in the copy of the last release, so it reaches the plugin API in ")
            }
            31 => self.dated(" is not in the copy of the last release, so it arrives in "),
            18 => self.dated_back(" named "),
            32 => self.dated_back(" arrived in "),
            20 | 22 | 25 | 26 | 28 => self.put_back(" was in the last release and is gone"),
            21 | 23 | 29 | 30 | 36 | 37 | 38 => self.put_right(" was "),
            24 | 27 => self.called(),
            34 => self.field_back(),
            41 => self.constant(),
            43..=46 => self.generation(number),
            _ => None,
        }
    }

    /// The item of a record that the message begins with, followed by these words.
    fn told(&self, commands: &'a [Said], words: &str) -> Option<Item<'a>> {
        let fits = |item: &Item| {
            self.message.strip_prefix(&item.label[..]).is_some_and(|rest| rest.starts_with(words))
        };
        items(commands).into_iter().find(fits)
    }

    /// The item of this record that an item of the other is, by its name.
    fn same(commands: &'a [Said], other: &Item) -> Option<Item<'a>> {
        items(commands).into_iter().find(|item| item.label == other.label)
    }

    fn now(&self) -> Option<Vec<u8>> {
        self.current.iter().find(|said| said.command.byte == HEAD)?.text(0).map(<[u8]>::to_vec)
    }

    /// A release in the current head that is later than the last release's.
    fn release(&self) -> Option<Vec<Edit>> {
        let head = |commands: &'a [Said]| commands.iter().find(|said| said.command.byte == HEAD);
        let was = std::str::from_utf8(head(self.released)?.text(0)?).ok()?;
        let parts: Option<Vec<u32>> = was.split('.').map(|part| part.parse().ok()).collect();
        let [major, minor, patch] = parts?[..] else { return None };
        let next = format!("{major}.{minor}.{}", patch.checked_add(1)?);
        let head = head(self.current)?;
        let new = changed(head, 0, Value::Text(Some(next.into_bytes())));
        let told = format!("raise the release in the head above {was}, as in: {}", line(&new));
        Some(vec![Edit::Set { old: line(head), new: line(&new), into: None, told }])
    }

    /// The current release as the `since` of what arrives.
    fn dated(&self, words: &str) -> Option<Vec<Edit>> {
        let item = self.told(self.current, words)?;
        Some(vec![since(&item, self.now()?)])
    }

    /// The `since` of the last release.
    fn dated_back(&self, words: &str) -> Option<Vec<Edit>> {
        let item = self.told(self.current, words)?;
        let was = Pair::same(self.released, &item)?;
        let was = was.since().or_else(|| was.parent.and_then(said_since))?;
        Some(vec![since(&item, was)])
    }

    /// The line of the last release, which is gone.
    fn put_back(&self, words: &str) -> Option<Vec<Edit>> {
        let item = self.told(self.released, words)?;
        let name = item.said.text(0)?;
        let parts = items(self.released).into_iter().filter(|part| {
            let parent = part.parent.filter(|parent| parent.command.byte == item.said.command.byte);
            parent.is_some_and(|parent| parent.text(0) == Some(name))
        });
        let add = |said: &Said, into| Edit::Add { line: line(said), into, after: None };
        let own = add(item.said, item.into);
        let parts = parts.map(|part| add(part.said, Some(named(item.said))));
        Some(std::iter::once(own).chain(parts).collect())
    }

    /// A value or member under its old name.
    fn called(&self) -> Option<Vec<Edit>> {
        let was = self.told(self.released, " is called ")?;
        let rest = self.message.strip_prefix(&was.label[..])?.strip_prefix(" is called ")?;
        let parent = was.parent?.text(0)?;
        let is = items(self.current).into_iter().find(|item| {
            let name = String::from_utf8_lossy(item.said.text(0).unwrap_or_default()).into_owned();
            let among = item.parent.is_some_and(|of| of.text(0) == Some(parent));
            among
                && item.said.command.byte == was.said.command.byte
                && rest.starts_with(&format!("{name} now - "))
        })?;
        let (old, new) = (line(is.said), line(was.said));
        let told = format!("put back in {}: {new} in place of {old}", is.into.as_deref()?);
        Some(vec![Edit::Set { old, new, into: is.into, told }])
    }

    /// A field that is gone, after the field that it followed.
    fn field_back(&self) -> Option<Vec<Edit>> {
        let was = self.told(self.released, " was in the last release and is gone")?;
        let open = was.label.strip_suffix(&String::from_utf8_lossy(was.said.text(0)?)[..])?;
        let fields = items(self.released).into_iter().filter(|item| item.label.starts_with(open));
        let before = fields.take_while(|item| item.label != was.label).last();
        let after = before.and_then(|item| Pair::same(self.current, &item)).map(|item| line(item.said));
        Some(vec![Edit::Add { line: line(was.said), into: was.into, after }])
    }

    /// The line of the last release in place of the current one.
    fn put_right(&self, words: &str) -> Option<Vec<Edit>> {
        let was = self.told(self.released, words)?;
        let is = Pair::same(self.current, &was)?;
        let (old, new) = (line(is.said), line(was.said));
        if old == new {
            return None;
        }
        let told = match &is.into {
            Some(parent) => format!("put back in {parent}: {new}"),
            None => format!("put back: {new}"),
        };
        Some(vec![Edit::Set { old, new, into: is.into, told }])
    }

    /// A constant for a structure that lacks one.
    fn constant(&self) -> Option<Vec<Edit>> {
        let fits = |said: &&Said| {
            let name = String::from_utf8_lossy(said.text(0).unwrap_or_default()).into_owned();
            said.command.byte == STRUCT
                && self.message.starts_with(&format!("{name} carries a generation number"))
        };
        let root = self.current.iter().find(fits)?;
        let constant = match root.text(2) {
            Some(constant) => constant.to_vec(),
            None => {
                let taken =
                    |name: &[u8]| items(self.current).iter().any(|item| item.said.text(0) == Some(name));
                let own = |name: &Vec<u8>| !taken(name);
                let numbered = (1..).map(|number| format!("GENERATION_{number}").into_bytes());
                std::iter::once(b"GENERATION".to_vec()).chain(numbered).find(own)?
            }
        };
        let mut edits = Vec::new();
        if root.text(2).is_none() {
            let new = changed(root, 2, Value::Text(Some(constant.clone())));
            edits.push(Edit::Set {
                old: line(root),
                new: line(&new),
                into: None,
                told: format!("write: {}", line(&new)),
            });
        }
        let declared = |said: &&Said| said.command.byte == CONSTANT && said.text(0) == Some(&constant[..]);
        let name = written(&constant);
        match self.current.iter().find(declared) {
            Some(said) => {
                let new = format!("constant {name} 1");
                edits.push(Edit::Set { old: line(said), into: None, told: format!("write: {new}"), new });
            }
            None => edits.push(Edit::Add { line: format!("constant {name} 1"), into: None, after: None }),
        }
        Some(edits)
    }

    /// The generation that follows the last release's, with its version line; the last release's where it fell.
    fn generation(&self, number: u32) -> Option<Vec<Edit>> {
        let (root, constant, was) = self.root(number)?;
        let next = if number == 46 { was } else { was.checked_add(1)? };
        let mut edits = Vec::new();
        let new = changed(constant, 2, Value::Value(next));
        let name = written(constant.text(0)?);
        if number != 44 {
            let told = format!("set constant {name} to {next}");
            edits.push(Edit::Set { old: line(constant), new: line(&new), into: None, told });
        }
        let mut entry = Said::unsaid(by_word(b"version")?);
        entry.values[0] = Value::Text(Some(root.text(0)?.to_vec()));
        entry.values[1] = Value::Word(u32::try_from(next).ok()?);
        let entry = line(&entry);
        let listed = self.current.iter().any(|said| said.command.byte == VERSION && line(said) == entry);
        if number != 46 && !listed {
            edits.push(Edit::Add { line: entry, into: None, after: None });
        }
        Some(edits)
    }

    /// The structure that a verdict on generations is about, its constant, and the number in the last release.
    fn root(&self, number: u32) -> Option<(&'a Said, &'a Said, i64)> {
        let constants = |commands: &'a [Said], name: &[u8]| {
            commands.iter().find(|said| said.command.byte == CONSTANT && said.text(0) == Some(name))
        };
        let roots = self.current.iter().filter(|said| said.command.byte == STRUCT && said.text(1).is_some());
        let mut known = roots.filter_map(|root| {
            let constant = constants(self.current, root.text(2)?)?;
            let was = constants(self.released, root.text(2)?)?;
            Some((root, constant, integer(was)?))
        });
        known.find(|(root, constant, was)| {
            let [root, constant] = [root, constant]
                .map(|said| String::from_utf8_lossy(said.text(0).unwrap_or_default()).into_owned());
            let front = match number {
                43 => format!("{root} is still generation {was}, "),
                44 => format!("{constant} was raised to "),
                _ => format!("{constant} was {was} in the last release and is "),
            };
            let of_root = number != 44 || self.message.contains(&format!(" entry for {root} generation "));
            self.message.starts_with(&front) && of_root
        })
    }
}

/// All commands that messages name, with their labels.
fn items(commands: &[Said]) -> Vec<Item<'_>> {
    let mut items = Vec::new();
    let (mut family, mut open, mut parent) = (String::new(), String::new(), None);
    let (mut section, mut place) = (String::new(), String::new());
    for said in commands {
        let name = String::from_utf8_lossy(said.text(0).unwrap_or_default()).into_owned();
        let (label, of) = match said.command.byte {
            CONSTANT => (format!("constant {name}"), None),
            ENUM | BIT_FIELD | STRUCT | FAMILY => {
                (family, open) = (name.clone(), name.clone());
                (section, place) = (named(said), named(said));
                parent = Some(said);
                let sort = match said.command.byte {
                    ENUM => "enum ",
                    BIT_FIELD => "bit field ",
                    _ => "",
                };
                (format!("{sort}{name}"), None)
            }
            VARIANT => {
                open = format!("{family}::{name}");
                place = format!("{section}, {}", named(said));
                parent = Some(said);
                (open.clone(), None)
            }
            VALUE | MEMBER => (format!("{open}::{name}"), parent),
            FIELD => (format!("{open}.{name}"), parent),
            UNSTORED_KEY => (format!("plugin key {name}"), None),
            // No pass looks at the keys of a family's fields.
            FIELD_KEY if parent.is_some_and(|open: &Said| open.command.byte == STRUCT) => {
                (format!("plugin key {name}"), None)
            }
            _ => continue,
        };
        let inside = matches!(said.command.byte, VALUE | MEMBER | FIELD | FIELD_KEY);
        items.push(Item { label, parent: of, into: inside.then(|| place.clone()), said });
    }
    items
}

impl Item<'_> {
    fn since(&self) -> Option<Vec<u8>> {
        said_since(self.said)
    }
}

/// Which operand is a command's `since`.
fn since_at(said: &Said) -> Option<usize> {
    said.command.operands.iter().position(|operand| operand.name == "since")
}

fn said_since(said: &Said) -> Option<Vec<u8>> {
    said.text(since_at(said)?).map(<[u8]>::to_vec)
}

/// The line of an item with this `since`.
fn since(item: &Item, release: Vec<u8>) -> Edit {
    let index = since_at(item.said).unwrap_or_default();
    let told = format!("set since={} in: {}", written(&release), line(item.said));
    let new = changed(item.said, index, Value::Text(Some(release)));
    Edit::Set { old: line(item.said), new: line(&new), into: item.into.clone(), told }
}

/// A command with another value of an operand.
fn changed(said: &Said, index: usize, value: Value) -> Said {
    let mut said = said.clone();
    said.values[index] = value;
    said
}

/// A command's word and name.
fn named(said: &Said) -> String {
    format!("{} {}", said.command.word, written(said.text(0).unwrap_or_default()))
}

fn integer(constant: &Said) -> Option<i64> {
    match constant.values.get(2) {
        Some(Value::Value(value)) if !constant.flag(1) => Some(*value),
        _ => None,
    }
}
