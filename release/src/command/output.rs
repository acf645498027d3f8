//! Standard output and standard error, either of which may be closed.

use std::io::{self, ErrorKind, Write};

use super::progress::clear;
use super::Stop;

/// Writes to standard output. A reader that has closed the pipe wants no more, which is no error.
pub fn print(bytes: &[u8]) -> Result<(), Stop> {
    written(bytes).map(|_| ())
}

pub fn print_line(line: &str) -> Result<(), Stop> {
    print(format!("{line}\n").as_bytes())
}

/// Writes a line of a run that goes on, which ends without a word where nobody reads it.
pub fn print_on(line: &str) -> Result<(), Stop> {
    match written(format!("{line}\n").as_bytes())? {
        true => Ok(()),
        false => Err(Stop::failed("")),
    }
}

/// Writes to standard output, and says whether it is still open.
fn written(bytes: &[u8]) -> Result<bool, Stop> {
    clear();
    let mut out = io::stdout().lock();
    match out.write_all(bytes).and_then(|()| out.flush()) {
        Ok(()) => Ok(true),
        Err(error) if error.kind() == ErrorKind::BrokenPipe => Ok(false),
        Err(error) => Err(Stop::failed(format!("cannot write to standard output: {error}"))),
    }
}

/// Says on standard error what went wrong, if anything is to be said. Where that is closed, the exit status is all that can be said.
pub fn complain(message: &str) {
    clear();
    if !message.is_empty() {
        let _ = io::stderr().write_all(format!("release: {message}\n").as_bytes());
    }
}

/// A number of things: `1 pair`, `2 pairs`.
pub fn counted(number: u64, thing: &str) -> String {
    format!("{number} {thing}{}", if number == 1 { "" } else { "s" })
}
