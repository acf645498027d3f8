//! `release help`, `release --version`, `release completions`, and what cargo says without the archive.
mod common;

use std::path::Path;
use std::process::Command;

use common::{run, Folder};

#[test]
fn help() {
    assert_eq!(run(&["help"]).said(0), run(&["--help"]).said(0));
    for command in ["check", "burn-in", "help", "completions"] {
        assert_eq!(run(&["help", command]).said(0), run(&[command, "--help"]).said(0));
    }
    let ran = run(&["help", "chek"]);
    assert!(ran
        .complained(3)
        .starts_with("release: help: there is no command chek\nthe commands are check, "));
    assert!(run(&["help", "check", "list"]).complained(3).contains("expected 0 to 1 operand, found 2"));
}

#[test]
fn version() {
    let ran = run(&["--version"]);
    let lines: Vec<&str> = ran.said(0).lines().collect();
    let [first, second] = lines[..] else { panic!("two lines: {lines:?}") };
    assert_eq!(first, format!("release {}", env!("CARGO_PKG_VERSION")));
    let rest = second.strip_prefix("proved library: revision ").expect("the revision");
    let (revision, sum) = rest.split_once(", archive SHA-256 ").expect("the archive");
    assert_eq!((revision, sum), (env!("MENQACHU_REVISION"), env!("MENQACHU_ARCHIVE_SUM")));
    let archive = Path::new(env!("MENQACHU_ARCHIVE_FOLDER")).join("libmenqachu.a");
    let again = Command::new("sha256sum").arg(archive).output().expect("sha256sum");
    assert!(String::from_utf8_lossy(&again.stdout).starts_with(&format!("{sum} ")) && sum.len() == 64);
}

/// What bash offers for the last of these words.
fn offered(words: &[&str]) -> Vec<String> {
    let given: Vec<String> = words.iter().map(|word| format!("'{word}'")).collect();
    let script = format!(
        "source <(\"$1\" completions)\nCOMP_WORDS=({}); COMP_CWORD={}\n_release\nprintf '%s\\n' \"${{COMPREPLY[@]}}\"",
        given.join(" "),
        words.len() - 1
    );
    let mut bash = Command::new("bash");
    let output = bash.args(["-uc", &script, "bash", env!("CARGO_BIN_EXE_release")]).output().expect("bash");
    assert_eq!((output.status.code(), &output.stderr[..]), (Some(0), &b""[..]), "{words:?}");
    let text = String::from_utf8(output.stdout).expect("words");
    text.lines().filter(|line| !line.is_empty()).map(String::from).collect()
}

#[test]
fn completions() {
    assert_eq!(offered(&["release", "ch"]), ["check", "chain"]);
    assert_eq!(offered(&["release", "--v"]), ["--version"]);
    assert_eq!(offered(&["release", "list", "--"]), ["--json", "--released", "--record", "--text", "--help"]);
    assert_eq!(offered(&["release", "diff", "--"]), ["--all", "--json", "--record", "--text", "--help"]);
    assert_eq!(offered(&["release", "burn-in", "--s"]), ["--seeds"]);
    assert_eq!(offered(&["release", "draft", ""]), ["add", "remove", "count"]);
    assert_eq!(offered(&["release", "shelf", ""]), ["set", "back", "list"]);
    assert_eq!(offered(&["release", "help", "burn"]), ["burn-in"]);
    // The rest are files, which bash completes itself.
    assert!(offered(&["release", "check", "a"]).is_empty());
    assert!(offered(&["release", "draft", "add", ""]).is_empty());
    assert!(run(&["completions"]).text().ends_with("complete -o default -F _release release\n"));
}

/// Without its archive cargo says how to make it.
#[test]
fn without_the_archive() {
    let folder = Folder::new("no_archive");
    let mut cargo = Command::new(env!("CARGO"));
    cargo.args(["check", "--offline", "--lib", "--target-dir"]).arg(folder.path().join("target"));
    cargo.current_dir(env!("CARGO_MANIFEST_DIR")).env("MENQACHU_ARCHIVE", folder.path());
    let output = cargo.output().expect("cargo runs");
    let said = String::from_utf8_lossy(&output.stderr).into_owned();
    assert!(output.status.success(), "{said}");
    assert!(said.contains("there is no ") && said.contains("run `tools/archive.sh`"), "{said}");
}

/// Cargo of an older Rust says which one is asked for.
#[test]
fn the_rust_that_is_asked_for() {
    assert_eq!(env!("CARGO_PKG_RUST_VERSION"), "1.82");
}

/// A fault of a text can be handed on as any error.
#[test]
fn a_fault_is_an_error() {
    fn made(text: &str) -> Result<usize, Box<dyn std::error::Error>> {
        Ok(menqachu::text::assemble(text.as_bytes())?.stream.len())
    }
    assert_eq!(made("head 1.0.0\nend").expect("a record"), 6);
    assert!(made("head 1.0.0")
        .expect_err("no end")
        .to_string()
        .starts_with("line 1, column 11: expected `end`"));
}
