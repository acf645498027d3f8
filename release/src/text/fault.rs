//! What is wrong with a text, and where.

use std::fmt;

use super::letters::{shown, width};
use super::read::lines;
use super::tokens::Wrong;

/// How many characters of a line are shown before a fault, and from it on.
const BEFORE: usize = 60;
const AFTER: usize = 40;

/// What is wrong with a text: the line and the column, in characters, both counted from 1, and what was expected there.
#[derive(Debug, PartialEq, Eq)]
pub struct Fault {
    pub line: usize,
    pub column: usize,
    pub message: String,
}

impl Fault {
    /// What is wrong with the line of this index. All before it is UTF-8.
    pub(super) fn of(index: usize, line: &[u8], wrong: Wrong) -> Fault {
        let before = String::from_utf8_lossy(&line[..wrong.at]).chars().count();
        Fault { line: index + 1, column: before + 1, message: wrong.message }
    }

    /// The line of the text that it is in, and below it a caret under the column.
    pub fn pointed(&self, text: &[u8]) -> String {
        let line = String::from_utf8_lossy(lines(text).nth(self.line - 1).unwrap_or_default());
        let before = self.column - 1;
        let skipped = before.saturating_sub(BEFORE);
        let mut rest = line.chars().skip(skipped);
        let front = seen(rest.by_ref().take(before - skipped));
        let back = seen(rest.by_ref().take(AFTER));
        let cut = |more: bool| if more { ".." } else { "" };
        let front = format!("    {}{front}", cut(skipped > 0));
        format!("{front}{back}{}\n{}^", cut(rest.next().is_some()), " ".repeat(width(&front)))
    }
}

impl fmt::Display for Fault {
    fn fmt(&self, out: &mut fmt::Formatter) -> fmt::Result {
        write!(out, "line {}, column {}: {}", self.line, self.column, self.message)
    }
}

impl std::error::Error for Fault {}

/// Characters for a line of output, a tab as one blank.
fn seen(letters: impl Iterator<Item = char>) -> String {
    let letters: String = letters.map(|letter| if letter == '\t' { ' ' } else { letter }).collect();
    shown(letters.as_bytes())
}

#[cfg(test)]
mod tests {
    use crate::text::assemble;

    fn pointed(text: &[u8]) -> (usize, usize, String) {
        let fault = assemble(text).expect_err("a fault");
        (fault.line, fault.column, fault.pointed(text))
    }

    #[test]
    fn columns_and_carets() {
        let cases: &[(&str, usize, usize, &str)] = &[
            ("head 1.0.0\nstruct s\n    field n\nend\n", 3, 12, "        field n\n               ^"),
            ("head 1.0.0\n\tstuct s # x\nend", 2, 2, "     stuct s # x\n     ^"),
            ("head 1 2\r\nend", 1, 8, "    head 1 2\n           ^"),
            ("\u{feff}hed\nend", 1, 1, "    hed\n    ^"),
            ("head \"µm\" µ=\nend", 1, 11, "    head \"µm\" µ=\n              ^"),
            ("head \"A\u{30a}\" x\nend", 1, 11, "    head \"A\u{30a}\" x\n             ^"),
            ("head a\u{200b}b\nend", 1, 7, "    head a\\u{200B}b\n          ^"),
            ("head \"\\q\"\nend", 1, 7, "    head \"\\q\"\n          ^"),
            ("head \"a\nend", 1, 8, "    head \"a\n           ^"),
            ("head 1\n\n# more\n\n", 3, 7, "    # more\n          ^"),
            ("", 1, 1, "    \n    ^"),
        ];
        for (text, line, column, shown) in cases {
            assert_eq!(pointed(text.as_bytes()), (*line, *column, shown.to_string()), "{text}");
        }
        let odd = pointed(b"head\nalias a\xb5 b\nend");
        assert_eq!(odd, (2, 8, "    alias a\u{fffd} b\n           ^".to_string()));
    }

    /// Of a long line the part around the fault is shown.
    #[test]
    fn long_lines() {
        let text = format!("head\nalias {} {} {}\nend", "a".repeat(100), "b".repeat(100), "c".repeat(100));
        let (line, column, shown) = pointed(text.as_bytes());
        assert_eq!((line, column), (2, 209));
        let expected = format!("    ..{} {}..\n{}^", "b".repeat(59), "c".repeat(40), " ".repeat(66));
        assert_eq!(shown, expected);
    }
}
