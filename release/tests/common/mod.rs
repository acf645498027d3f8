//! What the tests share: running the command, files for it, and the vectors that the gate replays.
// Each test file is a program of its own and uses a part of this.
#![allow(dead_code)]

pub mod terminal;
pub mod vectors;

use std::ffi::OsStr;
use std::io::Write;
use std::path::{Path, PathBuf};
use std::process::{Command, Stdio};

use menqachu::record::parts::Parts;

/// The repository's top.
pub fn top() -> PathBuf {
    Path::new(env!("CARGO_MANIFEST_DIR")).join("..")
}

/// What a run of the command left behind.
pub struct Ran {
    pub status: i32,
    pub out: Vec<u8>,
    pub err: String,
}

impl Ran {
    pub fn text(&self) -> &str {
        std::str::from_utf8(&self.out).expect("output is UTF-8")
    }

    /// Standard output, where the status is this and standard error is empty.
    pub fn said(&self, status: i32) -> &str {
        assert_eq!((self.status, self.err.as_str()), (status, ""), "output: {}", self.text());
        self.text()
    }

    /// Standard error, where the status is this and standard output is empty.
    pub fn complained(&self, status: i32) -> &str {
        assert_eq!((self.status, self.text()), (status, ""), "error: {}", self.err);
        assert!(self.err.starts_with("release: ") && self.err.ends_with('\n'), "error: {}", self.err);
        &self.err
    }
}

pub fn command() -> Command {
    Command::new(env!("CARGO_BIN_EXE_release"))
}

pub fn run<S: AsRef<OsStr>>(args: &[S]) -> Ran {
    run_on(args, b"")
}

/// Runs the command with these bytes on its standard input.
pub fn run_on<S: AsRef<OsStr>>(args: &[S], input: &[u8]) -> Ran {
    fed(command().args(args), input)
}

/// Runs the command in a folder, with the words of a line.
pub fn run_in(folder: &Path, line: &str) -> Ran {
    fed(command().current_dir(folder).args(line.split(' ')), b"")
}

/// Runs a command with these bytes on its standard input.
fn fed(command: &mut Command, input: &[u8]) -> Ran {
    let piped = command.stdin(Stdio::piped()).stdout(Stdio::piped()).stderr(Stdio::piped());
    let mut child = piped.spawn().expect("the command starts");
    let mut pipe = child.stdin.take().expect("a pipe");
    let input = input.to_vec();
    // A command that has read what it needs may have closed the pipe.
    let writer = std::thread::spawn(move || drop(pipe.write_all(&input)));
    let output = child.wait_with_output().expect("the command ends");
    writer.join().expect("the input is written");
    let status = output.status.code().expect("the command is not ended by a signal");
    Ran { status, out: output.stdout, err: String::from_utf8(output.stderr).expect("errors are UTF-8") }
}

/// A folder for the files of one test.
pub struct Folder(PathBuf);

impl Folder {
    pub fn new(name: &str) -> Folder {
        let folder = Path::new(env!("CARGO_TARGET_TMPDIR")).join(name);
        let _ = std::fs::remove_dir_all(&folder);
        std::fs::create_dir_all(&folder).expect("a folder for the test");
        Folder(folder)
    }

    pub fn path(&self) -> &Path {
        &self.0
    }

    pub fn file(&self, name: &str, bytes: &[u8]) -> String {
        let path = self.0.join(name);
        std::fs::write(&path, bytes).expect("a file of the test");
        path.to_str().expect("a path in UTF-8").to_string()
    }

    /// The record of a text, in a file.
    pub fn record(&self, name: &str, text: &str) -> String {
        self.file(name, &record(text).to_bytes())
    }
}

/// The record of a text.
pub fn record(text: &str) -> Parts {
    menqachu::text::assemble(text.as_bytes()).unwrap_or_else(|fault| panic!("{fault}:\n{text}"))
}

/// Drawn numbers, the same for the same seed (xorshift).
pub struct Drawn(pub u64);

impl Drawn {
    pub fn next(&mut self) -> u64 {
        self.0 ^= self.0 << 13;
        self.0 ^= self.0 >> 7;
        self.0 ^= self.0 << 17;
        self.0
    }

    pub fn below(&mut self, limit: usize) -> usize {
        (self.next() % limit.max(1) as u64) as usize
    }

    pub fn bytes(&mut self, length: usize) -> Vec<u8> {
        (0..length).map(|_| self.next() as u8).collect()
    }
}
