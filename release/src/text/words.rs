//! The words behind a command: its operands.

use super::tokens::{Token, Word, Wrong};
use crate::record::commands::{Command, Form, Operand, Said, Value, CONSTANT, HEAD};

const TEXT_LIMIT: usize = 255;

/// The words of a line that are still to be read, and where the last of them ends.
pub struct Words<'a> {
    rest: &'a [Token],
    end: usize,
}

impl<'a> Words<'a> {
    /// The words behind the first one of a line.
    pub fn after(first: &Token, rest: &'a [Token]) -> Words<'a> {
        Words { rest, end: rest.last().unwrap_or(first).end }
    }

    /// The operands of a command: the required ones in their order, then the others by keyword.
    pub fn command(&mut self, command: &'static Command) -> Result<Said, Wrong> {
        let mut said = Said::unsaid(command);
        for (index, operand) in command.operands.iter().enumerate() {
            match (command.byte, index) {
                (HEAD, 0) => said.values[0] = Value::Text(self.release()?),
                (CONSTANT, 1) => self.constant_value(&mut said)?,
                (CONSTANT, 2..=3) => {}
                _ if operand.form.required() => {
                    let what = format!("the {} of the {}", operand.name, command.word);
                    said.values[index] = self.value(operand.form, &what)?;
                }
                _ => {}
            }
        }
        self.keywords(&mut said)?;
        Ok(said)
    }

    /// The release of a head, unless the line is at its end or goes on with the keyword.
    fn release(&mut self) -> Result<Option<Vec<u8>>, Wrong> {
        match self.rest.first() {
            None => Ok(None),
            Some(token) if is_word(token, b"unreleased") => Ok(None),
            Some(_) => self.text("the release of the head").map(Some),
        }
    }

    /// A constant's integer, or `text` and its text.
    fn constant_value(&mut self, said: &mut Said) -> Result<(), Wrong> {
        if self.rest.first().is_some_and(|token| is_word(token, b"text")) {
            self.rest = &self.rest[1..];
            self.skip_equals();
            said.values[1] = Value::Flag(true);
            said.values[3] = Value::Text(Some(self.text("the text of the constant")?));
        } else {
            said.values[2] = self.value(Form::Value, "`text` or the value of the constant")?;
        }
        Ok(())
    }

    /// Keywords up to the end of the line, each at most once.
    fn keywords(&mut self, said: &mut Said) -> Result<(), Wrong> {
        let all = said.command.operands.iter().enumerate();
        let mut left: Vec<(usize, &Operand)> = all.filter(|(i, _)| said.command.has_keyword(*i)).collect();
        while let Some((token, rest)) = self.rest.split_first() {
            let named = |(_, operand): &(usize, &Operand)| is_word(token, operand.name.as_bytes());
            let Some(found) = left.iter().position(named) else {
                return Err(unexpected(token, &left));
            };
            let (index, operand) = left.remove(found);
            self.rest = rest;
            said.values[index] = self.keyword_value(operand)?;
        }
        Ok(())
    }

    fn keyword_value(&mut self, operand: &Operand) -> Result<Value, Wrong> {
        if operand.form == Form::Flag {
            return Ok(Value::Flag(true));
        }
        self.skip_equals();
        self.value(operand.form, &format!("the value of {}", operand.name))
    }

    fn value(&mut self, form: Form, what: &str) -> Result<Value, Wrong> {
        Ok(match form {
            Form::Text | Form::Optional => Value::Text(Some(self.text(what)?)),
            Form::Flag => Value::Flag(true),
            Form::Number => Value::Number(Some(self.word(what)?)),
            Form::Word => Value::Word(self.word(what)?),
            Form::Value => {
                Value::Value(self.number(what, "from -9223372036854775808 to 9223372036854775807")?)
            }
        })
    }

    fn word(&mut self, what: &str) -> Result<u32, Wrong> {
        self.number(what, "from 0 to 4294967295")
    }

    fn number<N: std::str::FromStr>(&mut self, what: &str, range: &str) -> Result<N, Wrong> {
        let expected = format!("{what}, a whole number {range}");
        let token = self.next(&expected)?;
        let digits = match &token.word {
            Word::Bare(word) if !word.starts_with(b"+") => std::str::from_utf8(word).ok(),
            _ => None,
        };
        let number = digits.and_then(|digits| digits.parse().ok());
        number.ok_or_else(|| Wrong::new(token.at, format!("expected {expected}, found {}", token.word)))
    }

    fn text(&mut self, what: &str) -> Result<Vec<u8>, Wrong> {
        let at = self.rest.first().map_or(self.end, |token| token.at);
        let text = self.any_text(what)?;
        if text.len() > TEXT_LIMIT {
            let found = text.len();
            return Err(Wrong::new(at, format!("expected {what} in at most 255 bytes, found {found}")));
        }
        Ok(text.to_vec())
    }

    pub fn any_text(&mut self, what: &str) -> Result<&'a [u8], Wrong> {
        let token = self.next(what)?;
        match &token.word {
            Word::Bare(text) | Word::Quoted(text) => Ok(text),
            Word::Equals => Err(Wrong::new(token.at, format!("expected {what}, found ="))),
        }
    }

    fn next(&mut self, what: &str) -> Result<&'a Token, Wrong> {
        let ended = || Wrong::new(self.end, format!("expected {what}, found the end of the line"));
        let (token, rest) = self.rest.split_first().ok_or_else(ended)?;
        self.rest = rest;
        Ok(token)
    }

    fn skip_equals(&mut self) {
        if let [Token { word: Word::Equals, .. }, rest @ ..] = self.rest {
            self.rest = rest;
        }
    }

    pub fn finish(&self) -> Result<(), Wrong> {
        match self.rest.first() {
            Some(token) => Err(unexpected(token, &[])),
            None => Ok(()),
        }
    }
}

fn is_word(token: &Token, word: &[u8]) -> bool {
    matches!(&token.word, Word::Bare(bare) if bare == word)
}

/// A word that is none of the keywords still to come.
fn unexpected(token: &Token, left: &[(usize, &Operand)]) -> Wrong {
    let mut expected: Vec<&str> = left.iter().map(|(_, operand)| operand.name).collect();
    expected.push("the end of the line");
    Wrong::new(token.at, format!("expected {}, found {}", any_of(&expected), token.word))
}

/// `a, b or c`
pub fn any_of(words: &[&str]) -> String {
    match words {
        [] => String::new(),
        [only] => only.to_string(),
        [front @ .., last] => format!("{} or {last}", front.join(", ")),
    }
}
