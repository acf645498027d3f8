//! Hands the three files of metadata-gen to the crate, from the folder that the
//! environment variable METADATA_GEN_SRC names. They are built where they lie.

use std::path::{Path, PathBuf};
use std::{env, fs};

const MODULES: [&str; 3] = ["schema", "released", "layout"];

fn main() {
    println!("cargo:rerun-if-env-changed=METADATA_GEN_SRC");
    let folder = source_folder();
    let mut text = String::new();
    for module in MODULES {
        let file = folder.join(format!("{module}.rs"));
        assert!(file.is_file(), "{} is not there", file.display());
        println!("cargo:rerun-if-changed={}", file.display());
        text.push_str(&declaration(module, &file));
    }
    let out = PathBuf::from(env::var("OUT_DIR").expect("cargo sets OUT_DIR"));
    fs::write(out.join("metadata_gen.rs"), text).expect("OUT_DIR can be written");
}

fn source_folder() -> PathBuf {
    let folder = env::var("METADATA_GEN_SRC")
        .expect("METADATA_GEN_SRC names the folder of layout.rs, schema.rs and released.rs");
    fs::canonicalize(&folder).unwrap_or_else(|error| panic!("METADATA_GEN_SRC {folder}: {error}"))
}

fn declaration(module: &str, file: &Path) -> String {
    format!(
        "#[path = {:?}]\n#[allow(dead_code, clippy::all)]\npub mod {module};\n",
        file.display().to_string()
    )
}
