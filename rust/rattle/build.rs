//! Links the static library that `tools/archive exports` writes, or `tools/archive oven` for the feature `oven`.
use std::{env, path::PathBuf};

fn main() {
    let here = PathBuf::from(env::var("CARGO_MANIFEST_DIR").expect("cargo names the folder"));
    let oven = env::var_os("CARGO_FEATURE_OVEN").is_some();
    let name = if oven { "oven" } else { "exports" };
    let folder = here.join("../../target/staticlib");
    let archive = folder.join(format!("lib{name}.a"));
    println!("cargo:rerun-if-changed={}", archive.display());
    assert!(archive.is_file(), "run `tools/archive {name}` first");
    println!("cargo:rustc-link-search=native={}", folder.display());
    println!("cargo:rustc-link-lib=static={name}");
}
