//! Names that look the same and are others: a name is its bytes, and some units have more than one spelling.

use std::collections::HashMap;

use super::letters::shown;

/// Spellings that a reader does not tell apart: angstrom, the small letter with a ring, micro and ohm.
const SPELLINGS: [&[&str]; 4] = [
    &["\u{c5}", "\u{212b}", "A\u{30a}"],
    &["\u{e5}", "a\u{30a}"],
    &["\u{b5}", "\u{3bc}"],
    &["\u{3a9}", "\u{2126}"],
];

/// The spelling that a text begins with, and the first of those that look like it.
fn spelling(text: &str) -> Option<(&'static str, &'static str)> {
    let begins = |spelling: &&&str| text.starts_with(**spelling);
    SPELLINGS.iter().find_map(|alike| alike.iter().find(begins).map(|found| (*found, alike[0])))
}

/// The text with one spelling for all that look the same, and the spellings that it has.
fn folded(text: &str) -> (String, Vec<&'static str>) {
    // Every spelling has a letter beyond ASCII.
    if text.is_ascii() {
        return (text.to_string(), Vec::new());
    }
    let (mut folded, mut found) = (String::new(), Vec::new());
    let mut rest = text;
    while let Some(letter) = rest.chars().next() {
        let length = match spelling(rest) {
            Some((spelling, first)) => {
                folded.push_str(first);
                found.push(spelling);
                spelling.len()
            }
            None => {
                folded.push(letter);
                letter.len_utf8()
            }
        };
        rest = &rest[length..];
    }
    (folded, found)
}

/// The texts of one or two records by what they look like.
#[derive(Default)]
pub struct Alike {
    looks: HashMap<String, Vec<Vec<u8>>>,
}

impl Alike {
    pub fn among<'a>(texts: impl IntoIterator<Item = &'a [u8]>) -> Alike {
        let mut alike = Alike::default();
        texts.into_iter().for_each(|text| alike.add(text));
        alike
    }

    fn add(&mut self, text: &[u8]) {
        let Ok(valid) = std::str::from_utf8(text) else { return };
        let (look, spellings) = folded(valid);
        if spellings.is_empty() {
            return;
        }
        let same = self.looks.entry(look).or_default();
        if !same.iter().any(|other| other == text) {
            same.push(text.to_vec());
        }
    }

    /// Another text that looks like this one.
    pub fn other(&self, text: &[u8]) -> Option<&[u8]> {
        let (look, _) = folded(std::str::from_utf8(text).ok()?);
        self.looks.get(&look)?.iter().find(|other| *other != text).map(Vec::as_slice)
    }

    /// The text as it is shown; with the code points of its spellings where another one looks the same.
    pub fn named(&self, text: &[u8]) -> String {
        match self.other(text) {
            Some(_) => with_points(text),
            None => shown(text),
        }
    }

    /// What is to be told of the texts that a message speaks of: those that another one looks like.
    pub fn note(&self, message: &[u8]) -> Option<String> {
        let spoken = |text: &&Vec<u8>| message.windows(text.len().max(1)).any(|part| part == &text[..]);
        let mut pairs: Vec<String> = (self.looks.values().filter(|texts| texts.len() > 1))
            .filter(|texts| texts.iter().any(|text| spoken(&text)))
            .map(|texts| texts.iter().map(|text| with_points(text)).collect::<Vec<_>>().join(" and "))
            .collect();
        pairs.sort();
        (!pairs.is_empty()).then(|| format!("{} look the same and are different names", pairs.join("; ")))
    }
}

/// A text with the code points of its spellings: `µm (U+00B5)`.
pub fn with_points(text: &[u8]) -> String {
    let (_, spellings) = folded(&String::from_utf8_lossy(text));
    let points: Vec<String> = spellings
        .iter()
        .flat_map(|s| s.chars())
        .map(|letter| format!("U+{:04X}", u32::from(letter)))
        .collect();
    format!("{} ({})", shown(text), points.join(" "))
}

#[cfg(test)]
mod tests {
    use super::*;

    fn alike(texts: &[&str]) -> Alike {
        Alike::among(texts.iter().map(|text| text.as_bytes()))
    }

    /// Each spelling of each unit, beside the others and alone.
    #[test]
    fn spellings() {
        for group in SPELLINGS {
            for one in group {
                assert_eq!(alike(&[one, one]).other(one.as_bytes()), None, "{one}");
                for other in group.iter().filter(|other| *other != one) {
                    let (one, other) = (format!("step_{one}x"), format!("step_{other}x"));
                    assert_eq!(alike(&[&one, &other]).other(one.as_bytes()), Some(other.as_bytes()), "{one}");
                }
            }
        }
        assert_eq!(alike(&["\u{b5}m", "\u{3bc}n", "mm", "um"]).other("\u{b5}m".as_bytes()), None);
    }

    #[test]
    fn code_points() {
        let texts = alike(&["\u{b5}m", "\u{3bc}m", "\u{c5}", "A\u{30a}", "n"]);
        assert_eq!(texts.named("\u{b5}m".as_bytes()), "\u{b5}m (U+00B5)");
        assert_eq!(texts.named("\u{3bc}m".as_bytes()), "\u{3bc}m (U+03BC)");
        assert_eq!(texts.named("A\u{30a}".as_bytes()), "A\u{30a} (U+0041 U+030A)");
        assert_eq!(texts.named(b"n"), "n");
        assert_eq!(alike(&["\u{b5}m"]).named("\u{b5}m".as_bytes()), "\u{b5}m");
    }

    #[test]
    fn notes() {
        let texts = alike(&["\u{b5}m", "\u{3bc}m", "n"]);
        let note = "\u{b5}m (U+00B5) and \u{3bc}m (U+03BC) look the same and are different names";
        assert_eq!(texts.note("t.\u{3bc}m was".as_bytes()).as_deref(), Some(note));
        assert_eq!(texts.note(b"t.n was"), None);
        assert_eq!(texts.note(b""), None);
    }
}
