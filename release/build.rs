//! Links the static library that tools/archive.sh makes, or the one in the folder that MENQACHU_ARCHIVE names, and
//! tells the command which one it is.
use std::env;
use std::path::{Path, PathBuf};
use std::process::Command;

fn main() {
    let here = Path::new(env!("CARGO_MANIFEST_DIR"));
    let folder = env::var_os("MENQACHU_ARCHIVE").map_or(here.join("../target/staticlib"), PathBuf::from);
    let folder = folder.canonicalize().unwrap_or(folder);
    let archive = folder.join("libmenqachu.a");
    if !archive.exists() {
        println!(
            "cargo:warning=there is no {}: run `tools/archive.sh` in the repository's top, or name the folder \
             of the archive in MENQACHU_ARCHIVE",
            archive.display()
        );
    }
    println!("cargo:rustc-link-search=native={}", folder.display());
    println!("cargo:rustc-link-lib=static=menqachu");
    println!("cargo:rerun-if-changed={}", archive.display());
    println!("cargo:rerun-if-env-changed=MENQACHU_ARCHIVE");
    println!("cargo:rerun-if-env-changed=MENQACHU_REVISION");
    if let Some(log) = said("git", &["rev-parse", "--git-path", "logs/HEAD"], here) {
        println!("cargo:rerun-if-changed={}", here.join(log).display());
    }
    println!("cargo:rustc-env=MENQACHU_REVISION={}", revision(here));
    let sum = said("sha256sum", &[&archive.to_string_lossy()], here);
    let sum = sum.as_deref().and_then(|line| line.split(' ').next()).unwrap_or("unknown");
    println!("cargo:rustc-env=MENQACHU_ARCHIVE_SUM={sum}");
    println!("cargo:rustc-env=MENQACHU_ARCHIVE_FOLDER={}", folder.display());
}

/// The commit that last changed the proved crates, or the one that MENQACHU_REVISION names.
fn revision(here: &Path) -> String {
    if let Ok(given) = env::var("MENQACHU_REVISION") {
        return given;
    }
    let crates = ["../crates", "../crates.txt"];
    let log = [&["log", "-1", "--format=%h", "--abbrev=12", "--"][..], &crates].concat();
    let status = [&["status", "--porcelain", "--"][..], &crates].concat();
    match (said("git", &log, here), said("git", &status, here)) {
        (Some(commit), Some(changes)) if !commit.is_empty() => {
            commit + if changes.is_empty() { "" } else { " with changes" }
        }
        _ => "unknown".to_string(),
    }
}

/// What a program prints, where it succeeds.
fn said(program: &str, words: &[&str], folder: &Path) -> Option<String> {
    let output = Command::new(program).args(words).current_dir(folder).output().ok()?;
    let text = String::from_utf8(output.stdout).ok()?;
    output.status.success().then(|| text.trim().to_string())
}
