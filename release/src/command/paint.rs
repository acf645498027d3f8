//! Colours on a terminal.

use std::io::{stdout, IsTerminal};

/// What a piece of text is.
#[derive(Clone, Copy, Debug, PartialEq, Eq)]
pub enum Style {
    Plain,
    Heading,
    /// What a verdict is about.
    Verdict,
    New,
    Changed,
    /// What is as it was.
    Kept,
}

impl Style {
    /// The number of the terminal's colour or face.
    fn code(self) -> Option<&'static str> {
        match self {
            Style::Plain => None,
            Style::Heading => Some("1"),
            Style::Verdict => Some("31"),
            Style::New => Some("32"),
            Style::Changed => Some("33"),
            Style::Kept => Some("2"),
        }
    }
}

#[derive(Clone, Copy)]
pub struct Paint {
    on: bool,
}

impl Paint {
    /// Colours where standard output is a terminal that has them, unless NO_COLOR says otherwise.
    pub fn of_stdout() -> Paint {
        let said = |name: &str| std::env::var_os(name).filter(|value| !value.is_empty());
        let dumb = said("TERM").is_some_and(|terminal| terminal == "dumb");
        Paint { on: stdout().is_terminal() && !dumb && said("NO_COLOR").is_none() }
    }

    pub fn dressed(self, text: &str, style: Style) -> String {
        match style.code().filter(|_| self.on) {
            Some(code) => format!("\x1b[{code}m{text}\x1b[0m"),
            None => text.to_string(),
        }
    }
}
