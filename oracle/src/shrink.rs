//! Smaller contents that show the same.

use crate::generate::words::{PLAIN_KINDS, POINTERS, PRIMITIVES, SLOTS};
use crate::model::Content;

/// Contents that are shrunk together: a pair, or one.
pub type Contents = Vec<Content>;

/// Shrink contents as far as `same` stays true of them, by the first smaller
/// ones found each time.
pub fn shrink(mut contents: Contents, same: impl Fn(&Contents) -> bool) -> Contents {
    while let Some(smaller) = smaller(&contents).into_iter().find(|next| same(next)) {
        contents = smaller;
    }
    contents
}

/// Contents with one thing less, or with one text shorter.
fn smaller(contents: &Contents) -> Vec<Contents> {
    let mut found = Vec::new();
    let texts = texts(contents);
    for text in &texts {
        found.push(contents.iter().map(|c| c.without(text)).collect());
        for at in 0..contents.len() {
            let mut next = contents.clone();
            next[at] = next[at].without(text);
            found.push(next);
        }
    }
    for (at, content) in contents.iter().enumerate() {
        for item in 0..content.items.len() {
            let mut next = contents.clone();
            next[at].items.remove(item);
            found.push(next);
        }
        found.extend(optionals_cleared(contents, at));
    }
    found.extend(texts.iter().filter_map(|text| renamed(contents, text)));
    found.retain(|next| next != contents);
    found
}

/// All texts of the contents, each once.
fn texts(contents: &Contents) -> Vec<String> {
    let mut texts = Vec::new();
    for content in contents {
        content
            .clone()
            .each_text(&mut |text| texts.push(text.clone()));
    }
    texts.sort();
    texts.dedup();
    texts
}

/// The contents with one optional text of one of them absent.
fn optionals_cleared(contents: &Contents, at: usize) -> Vec<Contents> {
    let mut count = 0;
    contents[at].clone().each_optional(&mut |_| count += 1);
    let cleared = |nth: usize| {
        let mut next = contents.clone();
        let mut met = 0;
        next[at].each_optional(&mut |optional| {
            if met == nth {
                *optional = None;
            }
            met += 1;
        });
        next
    };
    (0..count).map(cleared).collect()
}

/// The contents with a longer text replaced by a letter that none of them has,
/// unless the text is a word with a meaning.
fn renamed(contents: &Contents, text: &str) -> Option<Contents> {
    let word = [&PLAIN_KINDS[..], &POINTERS, &PRIMITIVES, &SLOTS].concat();
    if text.len() < 2 || word.contains(&text) {
        return None;
    }
    let taken = texts(contents);
    let letter = ('a'..='z').map(String::from).find(|l| !taken.contains(l))?;
    let mut next = contents.clone();
    for content in &mut next {
        content.each_text(&mut |other| {
            if other == text {
                *other = letter.clone();
            }
        });
    }
    Some(next)
}
