//! Help, and what is said where no command is.
mod common;

use std::ffi::OsString;
use std::os::unix::ffi::OsStringExt;

use common::run;

const COMMANDS: [&str; 18] = [
    "check",
    "chain",
    "list",
    "owner",
    "pointers",
    "diff",
    "report",
    "draft",
    "shelf",
    "reordered",
    "lint",
    "explain",
    "assemble",
    "show",
    "load",
    "burn-in",
    "help",
    "completions",
];

#[test]
fn help_of_the_whole() {
    let ran = run(&["--help"]);
    let help = ran.said(0);
    assert!(help.starts_with("usage: release COMMAND ..\n"));
    for command in COMMANDS {
        assert!(help.contains(&format!("\n  release {command} ")), "{command}");
    }
    assert!(help.contains("Exit status:") && help.lines().all(|line| line.len() <= 90));
    assert_eq!(run(&["-h"]).said(0), help);
}

/// Each command's usage is the one that the whole help gives it.
#[test]
fn help_of_each_command() {
    let whole = run(&["--help"]).said(0).to_string();
    for command in COMMANDS {
        let ran = run(&[command, "--help"]);
        let help = ran.said(0);
        let usage = help.lines().next().expect("a usage line").strip_prefix("usage: ").expect("a usage");
        assert!(format!("{usage} ").starts_with(&format!("release {command} ")), "{usage}");
        assert!(whole.contains(&format!("\n  {usage}  ")), "{usage}");
        assert!(help.contains("Exit status:") && help.lines().all(|line| line.len() <= 90));
        assert_eq!(run(&[command, "x", "-h", "y", "z", "w"]).said(0), help);
    }
}

#[test]
fn no_command_and_unknown_commands() {
    let commands = "the commands are check, chain, list, owner, pointers, diff, report, draft, shelf,\n\
                    reordered, lint, explain, assemble, show, load, burn-in, help and completions\n\
                    `release --help` says what each does\n";
    assert_eq!(run::<&str>(&[]).complained(3), format!("release: expected a command\n{commands}"));
    let unknown = format!("release: expected a command, found chek\n{commands}");
    assert_eq!(run(&["chek", "a", "b"]).complained(3), unknown);
    assert!(run(&["--json", "check"]).complained(3).contains("expected a command, found --json"));
}

/// Words that are no UTF-8, and names that would break a line.
#[test]
fn odd_words() {
    let odd = OsString::from_vec(b"a\n\xff".to_vec());
    for call in [vec![odd.clone()], vec!["list".into(), odd.clone()], vec!["show".into(), odd.clone()]] {
        let ran = run(&call);
        assert!(ran.complained(3).contains("a\\n\u{fffd}"), "{}", ran.err);
    }
    let option = OsString::from_vec(b"--\xff".to_vec());
    assert!(run(&["list".into(), option]).complained(3).contains("there is no option --\u{fffd}"));
}
