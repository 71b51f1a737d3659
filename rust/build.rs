//! Links the compiled library, and builds again when it is another: that of target/staticlib, or of the
//! folder that `SEGD_OWN` names.

use std::path::PathBuf;

fn main() {
    let package =
        PathBuf::from(std::env::var("CARGO_MANIFEST_DIR").expect("cargo names the folder"));
    let folder = std::env::var_os("SEGD_OWN")
        .map_or_else(|| package.join("../target/staticlib"), PathBuf::from);
    let archive = folder.join("libdeck.a");
    assert!(archive.exists(), "{} is missing: run `tools/build library`", archive.display());
    println!("cargo:rerun-if-changed={}", archive.display());
    println!("cargo:rerun-if-env-changed=SEGD_OWN");
    println!("cargo:rustc-link-search=native={}", folder.display());
    println!("cargo:rustc-link-lib=static=deck");
}
