//! Links a second archive of the exported calls beside the first, for `trials bench --against`: MENQACHU_AGAINST names the
//! root of another clone, or a folder with its libmenqachu.a. A copy of that archive gets other names for what it exports, and
//! the safe functions over them are those of release/src/lib.rs by the same other names, so that they are written once.

use std::path::{Path, PathBuf};
use std::process::Command;
use std::{env, fs};

/// What stands before each exported name of the second archive.
const PREFIX: &str = "other_";

fn main() {
    println!("cargo:rerun-if-env-changed=MENQACHU_AGAINST");
    println!("cargo:rerun-if-changed=build.rs");
    let out = PathBuf::from(env::var("OUT_DIR").expect("cargo sets OUT_DIR"));
    let text = match env::var_os("MENQACHU_AGAINST") {
        None => "pub const FOLDER: Option<&str> = None;\npub use menqachu as calls;\n".to_string(),
        Some(folder) => link(&fs::canonicalize(folder).expect("MENQACHU_AGAINST is a folder"), &out),
    };
    fs::write(out.join("other.rs"), text).expect("OUT_DIR can be written");
}

/// Puts the renamed archive and its functions into the folder of the build, and gives the text that declares them.
fn link(folder: &Path, out: &Path) -> String {
    let archive = archive_in(folder);
    println!("cargo:rerun-if-changed={}", archive.display());
    let copy = out.join("libmenqachu_other.a");
    let renamed = exported(&archive).into_iter().map(|name| format!("--redefine-sym={name}={PREFIX}{name}"));
    run(Command::new("objcopy").args(renamed).arg(&archive).arg(copy));
    println!("cargo:rustc-link-search=native={}", out.display());
    println!("cargo:rustc-link-lib=static=menqachu_other");
    let calls = out.join("calls.rs");
    fs::write(&calls, functions()).expect("OUT_DIR can be written");
    let (folder, calls) = (folder.display().to_string(), calls.display().to_string());
    format!(
        "pub const FOLDER: Option<&str> = Some({folder:?});\n#[path = {calls:?}]\n#[allow(dead_code)]\npub mod calls;\n"
    )
}

fn archive_in(folder: &Path) -> PathBuf {
    let places = [folder.join("libmenqachu.a"), folder.join("target/staticlib/libmenqachu.a")];
    let found = places.iter().find(|place| place.is_file());
    found.unwrap_or_else(|| panic!("{} has no libmenqachu.a", folder.display())).clone()
}

/// The names that an archive exports; all others are local to it.
fn exported(archive: &Path) -> Vec<String> {
    let listed =
        run(Command::new("nm").args(["--extern-only", "--defined-only", "--format=posix"]).arg(archive));
    // A line has a name, its type and its place; that of a member of the archive ends with a colon.
    let names = listed.lines().filter(|line| !line.ends_with(':')).filter_map(|line| line.split(' ').next());
    names.filter(|name| !name.is_empty()).map(str::to_string).collect()
}

/// The functions of release/src/lib.rs over the other names, without what it knows of records.
fn functions() -> String {
    let source = Path::new(env!("CARGO_MANIFEST_DIR")).join("../release/src/lib.rs");
    println!("cargo:rerun-if-changed={}", source.display());
    let text = fs::read_to_string(&source).expect("release/src/lib.rs can be read");
    let lines =
        text.lines().filter(|line| !line.starts_with("pub mod ") && *line != "#[forbid(unsafe_code)]");
    lines.map(|line| line.replace("menqachu_", &format!("{PREFIX}menqachu_")) + "\n").collect()
}

/// What a command prints, which must succeed.
fn run(command: &mut Command) -> String {
    let output = command.output().unwrap_or_else(|error| panic!("{command:?}: {error}"));
    assert!(output.status.success(), "{command:?}: {}", String::from_utf8_lossy(&output.stderr));
    String::from_utf8_lossy(&output.stdout).into_owned()
}
