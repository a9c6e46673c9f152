//! Links the port's archive if `oracle/build` has put it in place, and says so by the cfg `port`.

use std::path::Path;

fn main() {
    let folder = Path::new(&std::env::var("CARGO_MANIFEST_DIR").unwrap()).join("target/port");
    println!("cargo::rustc-check-cfg=cfg(port)");
    println!("cargo::rerun-if-changed={}", folder.display());
    if folder.join("libport.a").is_file() {
        println!("cargo::rustc-cfg=port");
        println!("cargo::rustc-link-search=native={}", folder.display());
        println!("cargo::rustc-link-lib=static=port");
    }
}
