//! Links the planner's archive: ARCHIVE names it, and without it the one that `./archive` writes, target/staticlib/libmandrikelo.a.
use std::{env, path::PathBuf};

fn main() {
    println!("cargo:rerun-if-env-changed=ARCHIVE");
    let here = PathBuf::from(env::var_os("CARGO_MANIFEST_DIR").expect("cargo sets it"));
    let archive = env::var_os("ARCHIVE").map(PathBuf::from).unwrap_or_else(|| here.join("../../target/staticlib/libmandrikelo.a"));
    let archive = archive.canonicalize().unwrap_or_else(|error| panic!("{}: {error}: ./archive writes it", archive.display()));
    println!("cargo:rerun-if-changed={}", archive.display());
    let folder = archive.parent().expect("a file stands in a folder");
    let stem = archive.file_stem().and_then(|stem| stem.to_str()).and_then(|stem| stem.strip_prefix("lib"));
    println!("cargo:rustc-link-search=native={}", folder.display());
    println!("cargo:rustc-link-lib=static={}", stem.expect("ARCHIVE is called libNAME.a"));
}
