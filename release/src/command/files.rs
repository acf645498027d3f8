//! Records and texts from the files that the command line names.

use std::ffi::{OsStr, OsString};
use std::fs::File;
use std::io::{self, Stdin, Write};
use std::path::{Path, PathBuf};
use std::sync::{LazyLock, Mutex, PoisonError};

use menqachu::record::commands::by_byte;
use menqachu::record::parts::Parts;
use menqachu::text::letters::{escaped, unseen};
use menqachu::text::{read, Fault};
use menqachu::Record;

use super::args::{Operand, Taken};
use super::output::complain;
use super::source::{whole, Found, Source};
use super::Stop;

/// A record as it was given: the name of its file, its parts, and the text that it was made of, if it was.
pub struct Given {
    pub file: OsString,
    parts: Parts,
    text: Option<Text>,
}

/// A text, and the line of each of its commands, counted from 0.
struct Text {
    bytes: Vec<u8>,
    lines: Vec<usize>,
}

impl Given {
    /// A record out of a file that holds more.
    pub fn within(file: &OsStr, parts: Parts) -> Given {
        Given { file: file.to_os_string(), parts, text: None }
    }

    pub fn record(&self) -> Record<'_> {
        self.parts.record()
    }

    /// The text that the record was made of, if it was.
    pub fn text(&self) -> Option<&[u8]> {
        self.text.as_ref().map(|text| &text.bytes[..])
    }

    /// The line of the text in which the command at this place of the stream stands, counted from 1.
    pub fn line_at(&self, place: usize) -> Option<usize> {
        let mut at = 0;
        for line in &self.text.as_ref()?.lines {
            if at == place {
                return Some(line + 1);
            }
            at += by_byte(*self.parts.stream.get(at)?)?.width();
        }
        None
    }

    pub fn shown(&self) -> String {
        shown_file(&self.file)
    }

    /// The record as its two parts.
    pub fn bytes(&self) -> Vec<u8> {
        self.parts.to_bytes()
    }

    /// The name as JSON gives it.
    pub fn name(&self) -> String {
        self.file.to_string_lossy().into_owned()
    }
}

/// Standard input, from which more than one record may be read.
static INPUT: LazyLock<Mutex<Source<Stdin>>> = LazyLock::new(|| Mutex::new(Source::new(io::stdin())));

/// A record, or the record of a text, from a file or as the next one from standard input.
pub fn record(operand: &Operand) -> Result<Given, Stop> {
    let file: &OsStr = operand;
    let found = if file == "-" {
        INPUT.lock().unwrap_or_else(PoisonError::into_inner).next(operand.taken)
    } else {
        File::open(file).and_then(|opened| Source::new(opened).next(operand.taken))
    };
    let given = |parts, text| Given { file: file.to_os_string(), parts, text };
    match found.map_err(|error| unread(file, &error))? {
        Found::Record(parts) => Ok(given(parts, None)),
        Found::Spoiled(parts, (line, column, byte)) => {
            let file = shown_file(file);
            complain(&format!(
                "note: {file} begins like a text, but has the byte {byte:02X} at line {line}, column {column}, \
                 and so is taken as a record; --text takes it as a text"
            ));
            Ok(given(parts, None))
        }
        Found::Text(bytes) => {
            let (parts, lines) = read(&bytes).map_err(|fault| wrong_text(file, &fault, &bytes))?;
            Ok(given(parts, Some(Text { bytes, lines })))
        }
        Found::Over => Err(over(file, "the text form of a record")),
        Found::Spent => Err(Stop::failed(
            "standard input was taken as a text up to its end; name a file for what else is to be read",
        )),
    }
}

/// Why a text is not taken: its file, the line and the column, what was expected there, and the line itself.
pub fn wrong_text(file: &OsStr, fault: &Fault, text: &[u8]) -> Stop {
    Stop::damaged(format!("{}: {fault}\n{}", shown_file(file), fault.pointed(text)))
}

/// Whether what an operand names is to be written as a text: where it is one, or where the caller says so.
pub fn written_as_text(operand: &Operand) -> bool {
    let there = || File::open(&**operand).and_then(|opened| Source::new(opened).next(Taken::AsTold));
    match operand.taken {
        Taken::Text => true,
        Taken::Record => false,
        Taken::AsTold => matches!(there(), Ok(Found::Text(_))),
    }
}

/// Puts bytes in place of a file, or where none is: they are written beside it, and the new file takes its name.
pub fn replace(file: &OsStr, bytes: &[u8]) -> Result<(), Stop> {
    let failed = |error: io::Error| Stop::failed(format!("cannot write {}: {error}", shown_file(file)));
    let path = match std::fs::canonicalize(file) {
        Err(error) if error.kind() == io::ErrorKind::NotFound => PathBuf::from(file),
        path => path.map_err(failed)?,
    };
    let mut beside = path.clone().into_os_string();
    beside.push(format!(".{}.new", std::process::id()));
    let written = write_like(&path, &beside, bytes).and_then(|()| std::fs::rename(&beside, &path));
    written.map_err(|error| {
        let _ = std::fs::remove_file(&beside);
        failed(error)
    })
}

/// Writes a new file with the permissions of another, if that is there.
fn write_like(path: &Path, beside: &OsStr, bytes: &[u8]) -> io::Result<()> {
    let mut new = File::create_new(beside)?;
    match std::fs::metadata(path) {
        Err(error) if error.kind() == io::ErrorKind::NotFound => {}
        metadata => new.set_permissions(metadata?.permissions())?,
    }
    new.write_all(bytes)?;
    new.sync_all()
}

/// A text from a file or from standard input.
pub fn text(file: &OsStr) -> Result<Vec<u8>, Stop> {
    let read = if file == "-" { whole(io::stdin().lock()) } else { File::open(file).and_then(whole) };
    read.map_err(|error| unread(file, &error))?.ok_or_else(|| over(file, "the text form of a record"))
}

/// The bytes of a shelf's file, none where there is no such file.
pub fn shelf(file: &OsStr) -> Result<Option<Vec<u8>>, Stop> {
    match File::open(file).and_then(whole) {
        Ok(bytes) => bytes.ok_or_else(|| over(file, "a shelf")).map(Some),
        Err(error) if error.kind() == io::ErrorKind::NotFound => Ok(None),
        Err(error) => Err(Stop::failed(format!("cannot read {}: {error}", shown_file(file)))),
    }
}

fn over(file: &OsStr, what: &str) -> Stop {
    Stop::failed(format!("{} is over 16 MiB; {what} is shorter", shown_file(file)))
}

fn unread(file: &OsStr, error: &io::Error) -> Stop {
    let file = shown_file(file);
    Stop::failed(format!("cannot read {file}: {error}; name a file, or - for standard input"))
}

pub fn shown_file(file: &OsStr) -> String {
    if file == "-" {
        "standard input".to_string()
    } else {
        shown(file)
    }
}

/// A word of the command line in one line of output.
pub fn shown(word: &OsStr) -> String {
    shown_bytes(word.as_encoded_bytes())
}

/// Bytes in one line of output.
pub fn shown_bytes(bytes: &[u8]) -> String {
    let mut text = String::new();
    for letter in String::from_utf8_lossy(bytes).chars() {
        match letter {
            _ if letter.is_ascii_control() => text.extend(letter.escape_default()),
            _ if unseen(letter) => text.push_str(&escaped(letter)),
            _ => text.push(letter),
        }
    }
    text
}
