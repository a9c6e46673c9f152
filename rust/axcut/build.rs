//! Links the archive: `target/staticlib/libport.a` of the repository, or the file that PORT_ARCHIVE
//! names.

use std::env;
use std::path::{Path, PathBuf};

fn main() {
    let package = PathBuf::from(env::var_os("CARGO_MANIFEST_DIR").expect("cargo sets it"));
    let archive = match env::var_os("PORT_ARCHIVE") {
        Some(file) => PathBuf::from(file),
        None => package.join("../../target/staticlib/libport.a"),
    };
    println!("cargo:rerun-if-env-changed=PORT_ARCHIVE");
    println!("cargo:rerun-if-changed={}", archive.display());
    if !archive.is_file() {
        panic!(
            "no archive {}: make it by `tools/build port`",
            archive.display()
        );
    }
    let folder = archive.parent().unwrap_or(Path::new("."));
    let name = archive.file_stem().and_then(|stem| stem.to_str());
    let name = name.and_then(|stem| stem.strip_prefix("lib"));
    println!("cargo:rustc-link-search=native={}", folder.display());
    println!(
        "cargo:rustc-link-lib=static={}",
        name.expect("the archive is named libNAME.a")
    );
}
