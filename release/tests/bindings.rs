//! The exported calls from C++ and, over a shared library, from Python.
mod common;

use std::path::{Path, PathBuf};
use std::process::{Command, Output, Stdio};

use common::{top, Folder};

/// The archive that these tests are linked against.
fn archive() -> PathBuf {
    Path::new(env!("MENQACHU_ARCHIVE_FOLDER")).join("libmenqachu.a")
}

fn ran(command: &mut Command) -> Output {
    let output = command.output().unwrap_or_else(|error| panic!("{command:?}: {error}"));
    let errors = String::from_utf8_lossy(&output.stderr);
    assert!(output.status.success() && errors.is_empty(), "{command:?}: {errors}");
    output
}

/// Makes the shared library in a folder.
fn shared(folder: &Folder) -> PathBuf {
    let mut script = Command::new(top().join("tools/sharedlib.sh"));
    script.env("MENQACHU_ARCHIVE", env!("MENQACHU_ARCHIVE_FOLDER"));
    let said = ran(script.arg(folder.path()));
    let library = folder.path().join("libmenqachu.so");
    assert_eq!(String::from_utf8_lossy(&said.stdout), format!("{}\n", library.display()));
    library
}

#[test]
fn from_c_plus_plus() {
    let folder = Folder::new("bindings_cpp");
    let program = folder.path().join("owner");
    let mut compiler = Command::new("g++");
    compiler.args(["-std=c++17", "-Wall", "-Wextra", "-Wpedantic", "-Werror", "-o"]).arg(&program);
    ran(compiler.arg(top().join("include/example.cpp")).arg(archive()));
    assert_eq!(ran(&mut Command::new(program)).stdout, b"scan\n");
}

/// The calls that the header declares are those that the library shows.
#[test]
fn the_shared_library_shows_the_header_s_calls() {
    let folder = Folder::new("bindings_shown");
    let library = shared(&folder);
    let names = ran(Command::new("nm").args(["-D", "--defined-only", "--format=just-symbols"]).arg(library));
    let mut names: Vec<String> = String::from_utf8_lossy(&names.stdout).lines().map(String::from).collect();
    let header = std::fs::read_to_string(top().join("include/menqachu.h")).expect("the header");
    let called = header.lines().filter_map(|line| line.split_once('(')?.0.split_whitespace().nth(1));
    let mut called: Vec<String> =
        called.filter(|name| name.starts_with("menqachu_")).map(String::from).collect();
    names.sort();
    called.sort();
    assert_eq!(names, called);
    assert!(called.len() >= 8, "{called:?}");
}

/// The cases of the check program, through the shared library.
#[test]
fn from_python() {
    let folder = Folder::new("bindings_python");
    let library = shared(&folder);
    let mut count = 0;
    for entry in std::fs::read_dir(top().join("cases/release_check")).expect("the cases") {
        let path = entry.expect("a case").path();
        if path.extension().is_some_and(|end| end == "in") {
            let mut python = Command::new("python3");
            python.arg(top().join("include/example.py")).arg(&library);
            let input = std::fs::File::open(&path).expect("an input");
            let output = ran(python.stdin(Stdio::from(input)));
            let expected = std::fs::read(path.with_extension("out")).expect("an output");
            assert_eq!(output.stdout, expected, "{}", path.display());
            count += 1;
        }
    }
    assert!(count >= 15);
}

/// Without its archive the script says how to make it.
#[test]
fn without_the_archive() {
    let folder = Folder::new("bindings_none");
    let mut script = Command::new(top().join("tools/sharedlib.sh"));
    let output =
        script.env("MENQACHU_ARCHIVE", folder.path()).arg(folder.path()).output().expect("the script");
    let errors = String::from_utf8_lossy(&output.stderr).into_owned();
    assert_eq!(output.status.code(), Some(1));
    assert!(errors.contains("run `tools/archive.sh` first"), "{errors}");
}
