//! `release` as one file: tools/standalone.sh makes it, and it runs by itself.
mod common;

use std::path::Path;
use std::process::Command;

use common::{run, top, Folder};

#[test]
fn one_file() {
    let folder = Folder::new("standalone");
    let mut script = Command::new(top().join("tools/standalone.sh"));
    script.env("MENQACHU_ARCHIVE", env!("MENQACHU_ARCHIVE_FOLDER"));
    script.env("CARGO_TARGET_DIR", Path::new(env!("CARGO_TARGET_TMPDIR")).join("standalone_target"));
    let output = script.arg(folder.path()).output().expect("the script");
    let errors = String::from_utf8_lossy(&output.stderr).into_owned();
    assert!(output.status.success(), "{errors}");
    let said = String::from_utf8_lossy(&output.stdout).into_owned();
    let (sum, version) = said.split_once('\n').expect("two parts");
    assert!(sum.len() == 64 + "  release".len() && sum.ends_with("  release"), "{sum}");
    assert_eq!(version, run(&["--version"]).said(0));
    let checked = Command::new("sha256sum")
        .args(["--check", "--quiet", "release.sha256"])
        .current_dir(folder.path())
        .status();
    assert!(checked.expect("sha256sum").success());
    let program = folder.path().join("release");
    let alone = Command::new(&program).env_clear().args(["explain", "35"]).output().expect("it runs");
    assert_eq!(String::from_utf8_lossy(&alone.stdout), run(&["explain", "35"]).said(0));
}
