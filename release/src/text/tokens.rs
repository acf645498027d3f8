//! The words of a line, and how a text is written as one.

use std::fmt;

use super::letters::{escaped, may_stand, shown, unseen};

/// How many characters of a word a message shows.
const SHOWN: usize = 60;

/// More words than any line may have, so those behind them need not be read.
const MOST: usize = 64;

/// A word of a line, and the bytes of the line that it stands in: those from `at` up to `end`.
#[derive(Clone, Debug, PartialEq, Eq)]
pub struct Token {
    pub word: Word,
    pub at: usize,
    pub end: usize,
}

/// A quoted word is always a text, never a keyword.
#[derive(Clone, Debug, PartialEq, Eq)]
pub enum Word {
    Bare(Vec<u8>),
    Quoted(Vec<u8>),
    Equals,
}

/// What is wrong with a line: the byte at which it shows, and what was expected there.
#[derive(Debug)]
pub struct Wrong {
    pub at: usize,
    pub message: String,
}

impl Wrong {
    pub fn new(at: usize, message: impl Into<String>) -> Wrong {
        Wrong { at, message: message.into() }
    }
}

impl fmt::Display for Word {
    fn fmt(&self, out: &mut fmt::Formatter) -> fmt::Result {
        match self {
            Word::Bare(text) | Word::Quoted(text) if letters(text).nth(SHOWN).is_some() => {
                let front: String = letters(text).take(SHOWN).collect();
                write!(out, "{}.. ({} bytes)", shown(front.as_bytes()), text.len())
            }
            Word::Bare(word) => out.write_str(&shown(word)),
            Word::Quoted(text) => out.write_str(&quoted(text)),
            Word::Equals => out.write_str("="),
        }
    }
}

fn letters(text: &[u8]) -> impl Iterator<Item = char> + '_ {
    text.utf8_chunks().flat_map(|chunk| chunk.valid().chars())
}

/// The words of a line without its comment, or what is wrong with it. A comment may hold any byte; all else is UTF-8. Of a
/// line with more words than any may have, only the front is given.
pub fn tokens(line: &[u8]) -> Result<Vec<Token>, Wrong> {
    let (line, odd) = match std::str::from_utf8(line) {
        Ok(line) => (line, None),
        Err(error) => {
            let (front, rest) = line.split_at(error.valid_up_to());
            (std::str::from_utf8(front).unwrap_or_default(), rest.first())
        }
    };
    let place = |rest: &str| line.len() - rest.len();
    let mut found = Vec::new();
    let mut rest = without_blanks(line);
    while let Some(first) = rest.chars().next() {
        let taken = match first {
            '#' => return Ok(found),
            '=' => Ok((Word::Equals, &rest[1..])),
            '"' => quoted_word(&rest[1..], odd),
            _ => bare_word(rest),
        };
        let (word, after) = taken.map_err(|Unread { rest, message }| Wrong::new(place(rest), message))?;
        if word != Word::Equals && !after.is_empty() && !after.starts_with([' ', '\t', '=']) {
            let message = format!("expected a blank or = after {word}; a text with \" or # in it is quoted");
            return Err(Wrong::new(place(after), message));
        }
        found.push(Token { word, at: place(rest), end: place(after) });
        if found.len() == MOST {
            return Ok(found);
        }
        rest = without_blanks(after);
    }
    odd.map_or(Ok(found), |byte| Err(Wrong::new(line.len(), ill_formed(*byte))))
}

/// What of a line cannot be read, and why.
struct Unread<'a> {
    rest: &'a str,
    message: String,
}

fn without_blanks(text: &str) -> &str {
    text.trim_start_matches([' ', '\t'])
}

/// Whether a character may stand in a word without quotes.
fn bare(letter: char) -> bool {
    !matches!(letter, ' ' | '"' | '#' | '=' | '\\') && !unseen(letter)
}

fn bare_word(rest: &str) -> Result<(Word, &str), Unread<'_>> {
    let length = rest.find(|letter| !bare(letter)).unwrap_or(rest.len());
    let (word, after) = rest.split_at(length);
    let message = match after.chars().next() {
        Some('\\') => "expected quotes around a text with \\, which is written as \\\\".to_string(),
        Some(letter) if unseen(letter) && letter != '\t' => not_taken(letter),
        _ => return Ok((Word::Bare(word.into()), after)),
    };
    Err(Unread { rest: after, message })
}

/// The text up to the closing quote, and what follows. Behind the line stands the odd byte, if there is one.
fn quoted_word<'a>(inside: &'a str, odd: Option<&u8>) -> Result<(Word, &'a str), Unread<'a>> {
    let mut text = String::new();
    let mut rest = inside;
    while let Some(letter) = rest.chars().next() {
        let after = &rest[letter.len_utf8()..];
        rest = match letter {
            '"' => return Ok((Word::Quoted(text.into()), after)),
            '\\' => {
                let (meant, after) = escape(after).map_err(|message| Unread { rest, message })?;
                text.push(meant);
                after
            }
            _ if unseen(letter) => return Err(Unread { rest, message: not_taken(letter) }),
            _ => {
                text.push(letter);
                after
            }
        };
    }
    let message = odd.map_or("expected a closing quote".to_string(), |byte| ill_formed(*byte));
    Err(Unread { rest, message })
}

/// The character that is meant by what follows a backslash, and what follows that.
fn escape(after: &str) -> Result<(char, &str), String> {
    match after.chars().next() {
        Some(letter @ ('"' | '\\')) => return Ok((letter, &after[1..])),
        Some('u') => {}
        _ => return Err("expected \\\", \\\\ or \\u{..} inside the quotes".to_string()),
    }
    let digits = after[1..].strip_prefix('{').and_then(|inside| inside.split_once('}'));
    let number =
        digits.filter(|(digits, _)| digits.len() <= 6 && digits.chars().all(|d| d.is_ascii_hexdigit()));
    let meant = number.and_then(|(digits, rest)| Some((u32::from_str_radix(digits, 16).ok()?, rest)));
    match meant.and_then(|(number, rest)| Some((char::from_u32(number)?, rest))) {
        Some((letter, _)) if !may_stand(letter) => Err(not_taken(letter)),
        Some(found) => Ok(found),
        None => Err("expected a character's number after \\u, as in \\u{B5}".to_string()),
    }
}

/// A character that no text may hold, or none that is not written by its number.
fn not_taken(letter: char) -> String {
    match may_stand(letter) {
        true => format!("expected \"{}\", since the character could not be seen", escaped(letter)),
        false => format!("expected no control character, found {:02X}", u32::from(letter)),
    }
}

fn ill_formed(byte: u8) -> String {
    format!("expected UTF-8, found the byte {byte:02X}")
}

/// A text as a word, in quotes where it needs them.
pub fn written(text: &[u8]) -> String {
    let word = String::from_utf8_lossy(text);
    if !word.is_empty() && word.chars().all(bare) {
        word.into_owned()
    } else {
        quoted(text)
    }
}

/// A text in quotes.
pub fn quoted(text: &[u8]) -> String {
    let inside = String::from_utf8_lossy(text).replace('\\', "\\\\").replace('"', "\\\"");
    format!("\"{}\"", shown(inside.as_bytes()))
}
